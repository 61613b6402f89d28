//! A client of one node of a ccnode cluster: store, collect, a maximum, a flag and a set, each request done exactly once.
//!
//! ```no_run
//! # fn main() -> Result<(), ccnode::Error> {
//! let mut client = ccnode::connect("127.0.0.1:7001", 7)?;
//! client.store("colour=blue")?;
//! for row in client.collect()? {
//!     println!("{}: {}", row.node, String::from_utf8_lossy(&row.text));
//! }
//! # Ok(())
//! # }
//! ```
#![forbid(unsafe_code)]
#![warn(missing_docs)]

mod addresses;
mod client;
mod connection;
mod error;
mod snapshot;
mod watch;
mod wire;

#[cfg(test)]
mod tests;

pub use addresses::{Address, Addresses};
pub use client::{connect, connect_timeout, Client, DEFAULT_TIMEOUT};
pub use error::{Cause, Error, Fault, Refusal};
pub use snapshot::Snapshot;
pub use watch::{Change, Watch};
pub use wire::Row;

/// What each call answers.
pub type Result<T> = std::result::Result<T, Error>;
