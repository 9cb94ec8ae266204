//! The plain interface to a whole server, made by its own `new` or with given slots and pending clients. What
//! is asked of it is asked of its public functions, in `caught`, since a panic is an answer.

pub use crate::calls::{caught, Answer};
pub use crate::server::peek::{kept, pending, server_with, Kept, Record};
pub use crate::{NetcodeServer, ServerAuthentication, ServerConfig};
