//! The plain interface to a server that lives: made, asked, looked at, altered and copied.

pub use crate::calls::{caught, Answer};
pub use crate::server::peek::lives::*;
pub use crate::server::peek::{kept, Entry, Kept};
pub use crate::token::peek::private::{seal, Private};
pub use crate::token::TokenGenerationError;
pub use crate::{NetcodeError, NetcodeServer, ServerAuthentication, ServerConfig, ServerResult};
