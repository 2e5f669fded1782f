//! Asking name servers.

mod ask;
mod server;

pub use ask::{ask, Asked, Course, Patience, Tracked, UDP_SIZE};
pub use server::{Server, ServerError};
