//! A node that answers asks by a script, and keeps what it was asked.

use crate::Refusal;
use std::collections::VecDeque;
use std::io::{Read, Write};
use std::net::{SocketAddr, TcpListener, TcpStream};
use std::sync::{Arc, Mutex};
use std::thread;

pub(super) const SESSION: u64 = 7;
pub(super) const STORED: &str = "01";
pub(super) const FLAG_OFF: &str = "0400";
pub(super) const SEEN_NOTHING: &str = "020000";

/// What becomes of an ask.
#[derive(Clone, Debug)]
pub(super) enum Step {
    Send(Vec<u8>),
    Silence,
    Close,
}

/// The number and the command of an ask.
pub(super) type Ask = (u64, String);

/// One step for each ask that comes, over whichever connection. After the last one each connection is closed.
pub(super) struct ScriptedNode {
    pub(super) address: SocketAddr,
    script: Arc<Mutex<Script>>,
}

struct Script {
    steps: VecDeque<Step>,
    asks: Vec<Ask>,
}

impl ScriptedNode {
    pub(super) fn new(steps: impl IntoIterator<Item = Step>) -> Self {
        let listener = TcpListener::bind("127.0.0.1:0").expect("a port");
        let address = listener.local_addr().expect("an address");
        let script = Arc::new(Mutex::new(Script {
            steps: steps.into_iter().collect(),
            asks: Vec::new(),
        }));
        let shared = Arc::clone(&script);
        thread::spawn(move || {
            for stream in listener.incoming().flatten() {
                let script = Arc::clone(&shared);
                thread::spawn(move || serve(stream, &script));
            }
        });
        ScriptedNode { address, script }
    }

    /// What it was asked so far.
    pub(super) fn asks(&self) -> Vec<Ask> {
        self.script.lock().expect("the script").asks.clone()
    }
}

fn serve(mut stream: TcpStream, script: &Mutex<Script>) -> Option<()> {
    loop {
        let mut prefix = [0; 4];
        stream.read_exact(&mut prefix).ok()?;
        let mut body = vec![0; u32::from_be_bytes(prefix) as usize];
        stream.read_exact(&mut body).ok()?;
        match script.lock().expect("the script").take(&body) {
            Step::Send(bytes) => stream.write_all(&bytes).ok()?,
            Step::Silence => {}
            Step::Close => return None,
        }
    }
}

impl Script {
    fn take(&mut self, body: &[u8]) -> Step {
        let request = u64::from_be_bytes(body[9..17].try_into().expect("eight bytes"));
        self.asks.push((request, hex(&body[17..])));
        self.steps.pop_front().unwrap_or(Step::Close)
    }
}

pub(super) fn hex(bytes: &[u8]) -> String {
    bytes.iter().map(|byte| format!("{byte:02x}")).collect()
}

/// The bytes of hex digits; spaces part fields.
pub(super) fn unhex(text: &str) -> Vec<u8> {
    let digits: Vec<char> = text.chars().filter(|sign| *sign != ' ').collect();
    let pairs = digits.chunks(2).map(|pair| pair.iter().collect::<String>());
    pairs
        .map(|pair| u8::from_str_radix(&pair, 16).expect("hex digits"))
        .collect()
}

fn frame(body: &str) -> Vec<u8> {
    unhex(&format!("{:08x}{body}", body.len() / 2))
}

pub(super) fn reply_of(session: u64, request: u64, answer: &str) -> Vec<u8> {
    frame(&format!("04{session:016x}{request:016x}{answer}"))
}

pub(super) fn refusing(request: u64, refusal: Refusal, carried: u64) -> Vec<u8> {
    let number = refusal.number();
    frame(&format!(
        "05{SESSION:016x}{request:016x}{number:02x}{carried:016x}"
    ))
}

pub(super) fn reply(request: u64, answer: &str) -> Step {
    Step::Send(reply_of(SESSION, request, answer))
}

pub(super) fn refused(request: u64, refusal: Refusal, carried: u64) -> Step {
    Step::Send(refusing(request, refusal, carried))
}

/// The steps by which a client learns the session's last request, and settles the number after it.
pub(super) fn learned(last: u64) -> [Step; 2] {
    [refused(0, Refusal::Stale, last), reply(last + 1, FLAG_OFF)]
}

/// A row of a view.
pub(super) fn row(node: u32, number: u64, text: &str) -> String {
    let length = text.len();
    format!(
        "{node:08x}{number:016x}{length:02x}{}{:020x}",
        hex(text.as_bytes()),
        0
    )
}
