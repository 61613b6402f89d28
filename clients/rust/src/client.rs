//! A client of one node: one request at a time, each under a number of its own, asked again until it is answered.

use crate::addresses::{look_up_all, Addresses};
use crate::connection::{Connection, Deadline, Failure};
use crate::error::{Cause, Error, Fault, Refusal};
use crate::snapshot::{take_snapshot, Snapshot};
use crate::watch::Watch;
use crate::wire::{encode_ask, Answer, Command, Row, Told, Verdict, MAX_REQUEST};
use crate::Result;
use std::net::SocketAddr;
use std::thread;
use std::time::Duration;

/// How long a call waits, unless it is told otherwise.
pub const DEFAULT_TIMEOUT: Duration = Duration::from_secs(10);

// A request without an answer for so long is asked again over a new connection.
const ATTEMPT: Duration = Duration::from_secs(2);

// A client pauses so long before it asks again, twice as long each time up to the longest.
const FIRST_PAUSE: Duration = Duration::from_millis(10);
const LONGEST_PAUSE: Duration = Duration::from_millis(320);

/// A client in a session of the node that listens at these addresses; several lead to one node. Its calls wait for
/// `DEFAULT_TIMEOUT`.
///
/// It returns once no request of an earlier client of the session is under way any more.
///
/// # Errors
///
/// Those of [`Client`], and `InvalidArgument` where an address is no `HOST:PORT`, or nobody knows its host.
pub fn connect(addresses: impl Addresses, session: u64) -> Result<Client> {
    connect_timeout(addresses, session, DEFAULT_TIMEOUT)
}

/// As [`connect`], with a timeout for itself, the look-up of names included, and for each call of the client.
///
/// # Errors
///
/// Those of [`connect`].
pub fn connect_timeout(
    addresses: impl Addresses,
    session: u64,
    timeout: Duration,
) -> Result<Client> {
    let deadline = Deadline::new(timeout);
    let mut client = Client {
        addresses: look_up_all(&addresses, deadline)?,
        session,
        timeout,
        connection: None,
        place: 0,
        next: None,
        pending: None,
    };
    client.learn(deadline)?;
    Ok(client)
}

/// A client of one node, which [`connect`] makes.
///
/// # Errors
///
/// Each call fails with `DeadlineExceeded` after its timeout, `Refused` where the node refuses for good, `InvalidArgument`
/// before anything is sent, `SessionInUse` or `Malformed`.
pub struct Client {
    addresses: Vec<SocketAddr>,
    session: u64,
    timeout: Duration,
    connection: Option<Connection>,
    // Which address is tried next.
    place: usize,
    // The number of the next request, once that is known.
    next: Option<u64>,
    // A request that was sent, and of which nobody knows yet what became.
    pending: Option<(u64, Command)>,
}

impl Client {
    /// How long each call waits from now on.
    pub fn set_timeout(&mut self, timeout: Duration) {
        self.timeout = timeout;
    }

    /// Stores a text of at most 64 bytes as this node's.
    pub fn store(&mut self, text: impl AsRef<[u8]>) -> Result<()> {
        self.call(Command::store(text.as_ref())?).map(drop)
    }

    /// The last row of each node that ever wrote, by ascending node.
    pub fn collect(&mut self) -> Result<Vec<Row>> {
        self.collect_by(Deadline::new(self.timeout))
    }

    /// What all nodes had at one moment: it collects until two collects in a row agree.
    ///
    /// Where others write all the time no two may agree until the deadline. A longer timeout gives it more tries.
    pub fn snapshot(&mut self) -> Result<Snapshot> {
        let deadline = Deadline::new(self.timeout);
        take_snapshot(|| self.collect_by(deadline))
    }

    /// Raises this node's maximum to `number`; a smaller one leaves it as it is.
    pub fn max(&mut self, number: u64) -> Result<()> {
        self.call(Command::Max(number)).map(drop)
    }

    /// The greatest maximum of all nodes, 0 where none was written.
    pub fn read_max(&mut self) -> Result<u64> {
        match self.call(Command::ReadMax)? {
            Answer::Max(number) => Ok(number),
            _ => Err(Error::SessionInUse),
        }
    }

    /// Sets this node's flag, for good.
    pub fn flag(&mut self) -> Result<()> {
        self.call(Command::Flag).map(drop)
    }

    /// Whether any node has set its flag.
    pub fn read_flag(&mut self) -> Result<bool> {
        match self.call(Command::ReadFlag)? {
            Answer::Flag(flag) => Ok(flag),
            _ => Err(Error::SessionInUse),
        }
    }

    /// Adds a number to this node's set. Refused with `SetFull` where that has 32 others.
    pub fn add(&mut self, number: u32) -> Result<()> {
        self.call(Command::Add(number)).map(drop)
    }

    /// The numbers that were added at any node, ascending.
    pub fn read_set(&mut self) -> Result<Vec<u32>> {
        match self.call(Command::ReadSet)? {
            Answer::Set(numbers) => Ok(numbers),
            _ => Err(Error::SessionInUse),
        }
    }

    /// Collects each interval, and iterates over the rows that appeared or changed.
    pub fn watch(&mut self, interval: Duration) -> Watch<'_> {
        Watch::new(self, interval)
    }

    /// Ends the client, as dropping it does. What is pending may still be done.
    pub fn close(self) {}

    fn collect_by(&mut self, deadline: Deadline) -> Result<Vec<Row>> {
        match self.call_by(deadline, Command::Collect)? {
            Answer::Seen(rows) => Ok(rows),
            _ => Err(Error::SessionInUse),
        }
    }

    fn call(&mut self, command: Command) -> Result<Answer> {
        self.call_by(Deadline::new(self.timeout), command)
    }

    fn call_by(&mut self, deadline: Deadline, command: Command) -> Result<Answer> {
        let called = self
            .prepare(deadline)
            .and_then(|number| self.request(number, &command, deadline));
        // What comes over this connection from now on belongs to a call that has ended.
        if !matches!(called, Ok(_) | Err(Error::Refused { .. })) {
            self.connection = None;
        }
        called
    }

    // The number of the next request, once what is pending was settled.
    fn prepare(&mut self, deadline: Deadline) -> Result<u64> {
        self.settle(deadline)?;
        match self.next {
            Some(number) => Ok(number),
            None => self.learn(deadline),
        }
    }

    fn request(&mut self, number: u64, command: &Command, deadline: Deadline) -> Result<Answer> {
        match self.answered(number, command, deadline) {
            Err(Error::DeadlineExceeded { cause, .. }) => Err(Error::DeadlineExceeded {
                is_pending: self.pending.is_some(),
                cause,
                collects: 0,
            }),
            told => told,
        }
    }

    // Brings the request of an earlier call, of which nobody knows what became, to its end.
    fn settle(&mut self, deadline: Deadline) -> Result<()> {
        let Some((number, command)) = self.pending.clone() else {
            return Ok(());
        };
        match self.answered(number, &command, deadline) {
            Ok(_) | Err(Error::Refused { .. }) => Ok(()),
            // Nobody waits for what a reading would have told any more.
            Err(Error::SessionInUse) if command.is_reading() => Ok(()),
            Err(why) => Err(why),
        }
    }

    // The number of the next request, which no earlier client's request can take any more. A request that an earlier client
    // gave up may still be on its way under the number after the last one. So that number goes to a reading, which does no
    // harm: once it is answered, the other one has been done, or never will be.
    fn learn(&mut self, deadline: Deadline) -> Result<u64> {
        let mut last = self.last_request(deadline)?;
        loop {
            match self.told(last + 1, &Command::ReadFlag, deadline)? {
                Verdict::Answered(Answer::Flag(_)) => {
                    self.next = Some(last + 2);
                    return Ok(last + 2);
                }
                Verdict::Answered(_) => last = self.last_request(deadline)?,
                // The other one has taken the number, or a later one.
                Verdict::Refused { refusal, carried } => last = last_told(refusal, carried)?,
            }
        }
    }

    fn last_request(&mut self, deadline: Deadline) -> Result<u64> {
        match self.ask(0, &Command::ReadFlag, deadline)? {
            Verdict::Refused { refusal, carried } => last_told(refusal, carried),
            // No node takes request 0.
            Verdict::Answered(_) => Err(Error::SessionInUse),
        }
    }

    // The answer to a request: one of the command's kind.
    fn answered(&mut self, number: u64, command: &Command, deadline: Deadline) -> Result<Answer> {
        match self.told(number, command, deadline)? {
            Verdict::Answered(answer) if command.gets(&answer) => {
                self.next = Some(number + 1);
                Ok(answer)
            }
            Verdict::Answered(_)
            | Verdict::Refused {
                refusal: Refusal::Stale | Refusal::Skip,
                ..
            } => Err(Error::SessionInUse),
            Verdict::Refused { refusal, carried } => {
                self.next = Some(number);
                Err(Error::Refused { refusal, carried })
            }
        }
    }

    // What becomes of a request, which is pending once it was sent until the node says so.
    fn told(&mut self, number: u64, command: &Command, deadline: Deadline) -> Result<Verdict> {
        let verdict = self.ask(number, command, deadline)?;
        self.pending = None;
        self.next = None;
        Ok(verdict)
    }

    // What the node says of a request: its answer, or a refusal that stands. Until then it is asked again.
    fn ask(&mut self, number: u64, command: &Command, deadline: Deadline) -> Result<Verdict> {
        let mut pause = FIRST_PAUSE;
        loop {
            let cause = match self.exchange(number, command, deadline.sooner(ATTEMPT)) {
                Ok(Verdict::Refused { refusal, .. }) if refusal.is_passing() => {
                    Cause::Refused(refusal)
                }
                Ok(verdict) => return Ok(verdict),
                Err(Failure::Malformed(fault)) => return Err(Error::Malformed(fault)),
                Err(Failure::Broken(why)) => {
                    self.connection = None;
                    Cause::Io(why)
                }
            };
            thread::sleep(pause.min(deadline.left()));
            pause = LONGEST_PAUSE.min(2 * pause);
            if deadline.left().is_zero() {
                return Err(Error::DeadlineExceeded {
                    is_pending: false,
                    cause,
                    collects: 0,
                });
            }
        }
    }

    // What the node says of a request to one sending of it. What it says of others is passed over.
    fn exchange(
        &mut self,
        number: u64,
        command: &Command,
        deadline: Deadline,
    ) -> std::result::Result<Verdict, Failure> {
        let mut connection = self.connected(deadline)?;
        if number != 0 {
            self.pending = Some((number, command.clone()));
        }
        connection.send(&encode_ask(self.session, number, command), deadline)?;
        loop {
            let told = connection.receive(deadline)?;
            if self.is_verdict(&told, number) {
                self.connection = Some(connection);
                return Ok(told.verdict);
            }
        }
    }

    // A request that was taken before is refused as Repeat at most, and answered again.
    fn is_verdict(&self, told: &Told, number: u64) -> bool {
        let is_repeat = matches!(
            told.verdict,
            Verdict::Refused {
                refusal: Refusal::Repeat,
                ..
            }
        );
        (told.session, told.request) == (self.session, number) && !is_repeat
    }

    // The connection, which is put back once a request was answered over it.
    fn connected(&mut self, deadline: Deadline) -> std::io::Result<Connection> {
        if let Some(connection) = self.connection.take() {
            return Ok(connection);
        }
        let address = self.addresses[self.place % self.addresses.len()];
        self.place += 1;
        Connection::open(&address, deadline)
    }
}

// The session's last request, by a refusal that tells it.
fn last_told(refusal: Refusal, carried: u64) -> Result<u64> {
    match refusal {
        Refusal::Stale if carried > MAX_REQUEST => Err(Error::Malformed(Fault::TooLarge)),
        Refusal::Stale => Ok(carried),
        Refusal::Skip => Err(Error::SessionInUse),
        _ => Err(Error::Refused { refusal, carried }),
    }
}
