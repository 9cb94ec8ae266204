//! The line server on loopback, renetcode's own clients as its pumps, and between them a proxy that loses, repeats and reorders.
//! What the server booked is held to what the proxy delivered.

pub mod audit;
pub mod book;
pub mod draw;
pub mod fault;
pub mod model;
pub mod options;
pub mod plant;
pub mod proxy;
pub mod pump;
pub mod reading;
pub mod road;
pub mod server;
pub mod show;
pub mod sockets;
