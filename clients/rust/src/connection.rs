//! One connection to a node, and until when a call waits.

use crate::error::Fault;
use crate::wire::{decode_body, decode_length, Told};
use std::io::{self, Read, Write};
use std::net::{SocketAddr, TcpStream};
use std::time::{Duration, Instant};

/// So long from its making on.
#[derive(Clone, Copy)]
pub(crate) struct Deadline {
    start: Instant,
    whole: Duration,
}

impl Deadline {
    pub(crate) fn new(whole: Duration) -> Self {
        Deadline {
            start: Instant::now(),
            whole,
        }
    }

    /// Zero once it is over.
    pub(crate) fn left(&self) -> Duration {
        self.whole.saturating_sub(self.start.elapsed())
    }

    /// This deadline, or one that ends so long from now, whichever is over first.
    pub(crate) fn sooner(&self, limit: Duration) -> Deadline {
        Deadline::new(self.left().min(limit))
    }

    /// What is left for a socket's next step, which has no time of zero.
    fn timeout(&self) -> io::Result<Duration> {
        let left = self.left();
        if left.is_zero() {
            return Err(io::Error::new(
                io::ErrorKind::TimedOut,
                "the deadline has passed",
            ));
        }
        Ok(left)
    }
}

/// Why no frame came.
pub(crate) enum Failure {
    /// The connection couldn't be made, broke, or said nothing in time.
    Broken(io::Error),
    /// Bytes came that spell no frame that a client is sent.
    Malformed(Fault),
}

impl From<io::Error> for Failure {
    fn from(why: io::Error) -> Self {
        Failure::Broken(why)
    }
}

impl From<Fault> for Failure {
    fn from(fault: Fault) -> Self {
        Failure::Malformed(fault)
    }
}

/// Frames to a node and from it.
pub(crate) struct Connection {
    stream: TcpStream,
}

impl Connection {
    pub(crate) fn open(address: &SocketAddr, deadline: Deadline) -> io::Result<Self> {
        let stream = TcpStream::connect_timeout(address, deadline.timeout()?)?;
        stream.set_nodelay(true)?;
        Ok(Connection { stream })
    }

    pub(crate) fn send(&mut self, frame: &[u8], deadline: Deadline) -> io::Result<()> {
        self.stream.set_write_timeout(Some(deadline.timeout()?))?;
        self.stream.write_all(frame)
    }

    /// The next frame.
    pub(crate) fn receive(&mut self, deadline: Deadline) -> Result<Told, Failure> {
        let mut prefix = [0; 4];
        self.fill(&mut prefix, deadline)?;
        let mut body = vec![0; decode_length(prefix)?];
        self.fill(&mut body, deadline)?;
        Ok(decode_body(&body)?)
    }

    // As read_exact, but that each read has only what is left until the deadline.
    fn fill(&mut self, mut rest: &mut [u8], deadline: Deadline) -> io::Result<()> {
        while !rest.is_empty() {
            self.stream.set_read_timeout(Some(deadline.timeout()?))?;
            match self.stream.read(rest) {
                Ok(0) => return Err(io::ErrorKind::UnexpectedEof.into()),
                Ok(count) => rest = &mut rest[count..],
                Err(why) if why.kind() == io::ErrorKind::Interrupted => {}
                Err(why) => return Err(why),
            }
        }
        Ok(())
    }
}
