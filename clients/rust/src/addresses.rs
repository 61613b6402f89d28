//! Where a node listens, and the look-up of its names until a deadline.

use crate::connection::Deadline;
use crate::error::{Cause, Error};
use crate::Result;
use std::io;
use std::net::{SocketAddr, ToSocketAddrs};
use std::sync::mpsc::{self, RecvTimeoutError};
use std::thread;

/// An address of a node.
#[derive(Clone, Debug, PartialEq, Eq)]
pub enum Address {
    /// An address that needs no look-up.
    Known(SocketAddr),
    /// "HOST:PORT", whose host is looked up.
    Named(String),
}

/// What [`connect`](crate::connect) takes: "HOST:PORT", a [`SocketAddr`], or several of either, as a slice, an array or a
/// vector.
pub trait Addresses {
    /// Each address, in the order in which they are tried.
    fn addresses(&self) -> Vec<Address>;
}

impl Addresses for SocketAddr {
    fn addresses(&self) -> Vec<Address> {
        vec![Address::Known(*self)]
    }
}

impl Addresses for str {
    fn addresses(&self) -> Vec<Address> {
        vec![Address::Named(self.to_string())]
    }
}

impl Addresses for String {
    fn addresses(&self) -> Vec<Address> {
        self.as_str().addresses()
    }
}

impl<A: Addresses> Addresses for [A] {
    fn addresses(&self) -> Vec<Address> {
        self.iter().flat_map(Addresses::addresses).collect()
    }
}

impl<A: Addresses, const COUNT: usize> Addresses for [A; COUNT] {
    fn addresses(&self) -> Vec<Address> {
        self.as_slice().addresses()
    }
}

impl<A: Addresses> Addresses for Vec<A> {
    fn addresses(&self) -> Vec<Address> {
        self.as_slice().addresses()
    }
}

impl<A: Addresses + ?Sized> Addresses for &A {
    fn addresses(&self) -> Vec<Address> {
        (**self).addresses()
    }
}

/// A system's look-up of "HOST:PORT".
pub(crate) type Resolver = fn(&str) -> io::Result<Vec<SocketAddr>>;

/// The addresses of the system's own look-up.
pub(crate) fn look_up_all(
    addresses: &impl Addresses,
    deadline: Deadline,
) -> Result<Vec<SocketAddr>> {
    look_up_by(system, addresses, deadline)
}

/// The addresses that a resolver finds until the deadline. `InvalidArgument` where there is none, or one is unknown.
pub(crate) fn look_up_by(
    resolver: Resolver,
    addresses: &impl Addresses,
    deadline: Deadline,
) -> Result<Vec<SocketAddr>> {
    let mut found = Vec::new();
    for address in addresses.addresses() {
        match address {
            Address::Known(known) => found.push(known),
            Address::Named(name) => found.extend(look_up(resolver, name, deadline)?),
        }
    }
    if found.is_empty() {
        return Err(Error::InvalidArgument("an address is needed".to_string()));
    }
    Ok(found)
}

fn system(name: &str) -> io::Result<Vec<SocketAddr>> {
    name.to_socket_addrs().map(Iterator::collect)
}

// Nothing cuts the system's look-up short: its thread is left behind where it takes too long.
fn look_up(resolver: Resolver, name: String, deadline: Deadline) -> Result<Vec<SocketAddr>> {
    if let Ok(known) = name.parse() {
        return Ok(vec![known]);
    }
    let (tell, told) = mpsc::channel();
    let what = name.clone();
    thread::spawn(move || tell.send(resolver(&what)));
    match told.recv_timeout(deadline.left()) {
        Ok(looked_up) => looked_up.map_err(|why| Error::InvalidArgument(format!("{name}: {why}"))),
        Err(RecvTimeoutError::Timeout) => Err(late(&name)),
        Err(RecvTimeoutError::Disconnected) => Err(Error::InvalidArgument(format!(
            "{name}: the look-up failed"
        ))),
    }
}

fn late(name: &str) -> Error {
    let why = format!("the look-up of {name} takes too long");
    Error::DeadlineExceeded {
        is_pending: false,
        cause: Cause::Io(io::Error::new(io::ErrorKind::TimedOut, why)),
        collects: 0,
    }
}
