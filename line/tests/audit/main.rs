//! The audit on made-up logs: each thing that can go wrong is planted, and has to be named.

mod connections;
mod readings;
mod story;
