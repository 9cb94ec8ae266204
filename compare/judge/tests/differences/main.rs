//! Every row of docs/DIFFERENCES.md, by its number: on both sides, or of ours alone where the Rust has no
//! such case (18, 19, 28, 33, 35, 38, 39, 44 to 46, 48, 52, 53, 59, 74). Where the two builds of the Rust differ,
//! a row says both, and `checked` tells which one this is.

mod arrivals;
mod came;
mod common;
mod heads;
mod hosts;
mod packets;
mod pair;
mod pumps;
mod sending;
mod servers;
mod set_up;
mod shared;
mod spent;
mod standard;
mod tables;
mod times;
mod windows;
