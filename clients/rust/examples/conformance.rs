//! Asks nodes by a plan, and prints a line of JSON for each operation: a driver of clients/conformance.py, which has its
//! words.
//!
//! conformance OPERATIONS PLAN NODE,ADDRESS,SESSION...

use ccnode::{connect_timeout, Client, Error, Row, Snapshot};
use std::error;
use std::thread;
use std::time::{Duration, SystemTime, UNIX_EPOCH};

const NAME: &str = "rust";
const PATIENCE: Duration = Duration::from_secs(120);
// Each fiftieth operation gets no time to speak of.
const HASTE: Duration = Duration::from_millis(1);
// A snapshot ends by its deadline where others write all the time.
const SNAPSHOT_PATIENCE: Duration = Duration::from_secs(2);

#[derive(Clone)]
struct Driver {
    operations: u64,
    plan: String,
    node: String,
    address: String,
    session: u64,
}

enum Operation {
    Store(String),
    Collect,
    Snapshot,
    Max(u64),
    ReadMax,
    Flag,
    ReadFlag,
    Add(u32),
    ReadSet,
}

impl Operation {
    fn name(&self) -> &'static str {
        match self {
            Operation::Store(_) => "store",
            Operation::Collect => "collect",
            Operation::Snapshot => "snapshot",
            Operation::Max(_) => "max",
            Operation::ReadMax => "read_max",
            Operation::Flag => "flag",
            Operation::ReadFlag => "read_flag",
            Operation::Add(_) => "add",
            Operation::ReadSet => "read_set",
        }
    }

    /// As JSON.
    fn argument(&self) -> String {
        match self {
            Operation::Store(text) => format!("\"{text}\""),
            Operation::Max(number) => number.to_string(),
            Operation::Add(number) => number.to_string(),
            _ => "null".to_string(),
        }
    }

    /// The answer as JSON.
    fn ask(&self, client: &mut Client) -> Result<String, Error> {
        let stored = |()| "\"Stored\"".to_string();
        match self {
            Operation::Store(text) => client.store(text).map(stored),
            Operation::Collect => client.collect().map(|rows| listed(rows.iter().map(row))),
            Operation::Snapshot => client.snapshot().map(|taken| snapshot(&taken)),
            Operation::Max(number) => client.max(*number).map(stored),
            Operation::ReadMax => client.read_max().map(|number| number.to_string()),
            Operation::Flag => client.flag().map(stored),
            Operation::ReadFlag => client.read_flag().map(|flag| flag.to_string()),
            Operation::Add(number) => client.add(*number).map(stored),
            Operation::ReadSet => client.read_set().map(listed),
        }
    }
}

fn listed<T: ToString>(items: impl IntoIterator<Item = T>) -> String {
    let items: Vec<String> = items.into_iter().map(|item| item.to_string()).collect();
    format!("[{}]", items.join(","))
}

fn row(row: &Row) -> String {
    let text = String::from_utf8_lossy(&row.text);
    let set = listed(&row.set);
    format!(
        "[{},{},\"{text}\",{},{},{set}]",
        row.node, row.number, row.max, row.flag
    )
}

fn snapshot(taken: &Snapshot) -> String {
    let rows = listed(taken.rows.iter().map(row));
    format!(r#"{{"rows":{rows},"collects":{}}}"#, taken.collects)
}

fn told(answer: Result<String, Error>) -> String {
    match answer {
        Ok(json) => json,
        Err(Error::DeadlineExceeded {
            is_pending: true, ..
        }) => r#"{"deadline":"pending"}"#.to_string(),
        Err(Error::DeadlineExceeded { .. }) => r#"{"deadline":"unsent"}"#.to_string(),
        Err(why) => format!("{{\"error\":\"{why}\"}}"),
    }
}

fn microseconds() -> u128 {
    SystemTime::now()
        .duration_since(UNIX_EPOCH)
        .map_or(0, |since| since.as_micros())
}

impl Driver {
    fn operation(&self, place: u64) -> Operation {
        let letters = self.plan.as_bytes();
        match letters[((place + self.session) % letters.len() as u64) as usize] {
            b's' => Operation::Store(format!("{NAME}-{}-{place}", self.session)),
            b'c' => Operation::Collect,
            b'n' => Operation::Snapshot,
            b'm' => Operation::Max(1000 * place + self.session),
            b'M' => Operation::ReadMax,
            b'f' if 2 * place >= self.operations => Operation::Flag,
            b'f' | b'F' => Operation::ReadFlag,
            b'a' => Operation::Add((4 * self.session + 4 * place / self.operations) as u32),
            _ => Operation::ReadSet,
        }
    }

    fn step(&self, client: &mut Client, place: u64) {
        let operation = self.operation(place);
        client.set_timeout(match operation {
            _ if place % 50 == 25 => HASTE,
            Operation::Snapshot => SNAPSHOT_PATIENCE,
            _ => PATIENCE,
        });
        let start = microseconds();
        let answer = told(operation.ask(client));
        let end = microseconds() + 1;
        let fields = [
            format!(r#""client":"{NAME}""#),
            format!(r#""session":{}"#, self.session),
            format!(r#""node":{}"#, self.node),
            format!(r#""operation":"{}""#, operation.name()),
            format!(r#""argument":{}"#, operation.argument()),
            format!(r#""start":{start}"#),
            format!(r#""end":{end}"#),
            format!(r#""answer":{answer}"#),
        ];
        println!("{{{}}}", fields.join(","));
    }

    fn drive(&self) -> Result<(), Error> {
        let connect = || connect_timeout(self.address.as_str(), self.session, PATIENCE);
        let mut client = connect()?;
        for place in 0..self.operations {
            self.step(&mut client, place);
            if place % 400 == 399 {
                client.close();
                client = connect()?;
            }
        }
        Ok(())
    }
}

fn drivers() -> Result<Vec<Driver>, Box<dyn error::Error>> {
    let mut words = std::env::args().skip(1);
    let operations = words.next().ok_or("no OPERATIONS")?.parse()?;
    let plan = words.next().ok_or("no PLAN")?;
    words
        .map(|word| {
            let parts: Vec<&str> = word.split(',').collect();
            let [node, address, session] = parts[..] else {
                return Err("a word isn't NODE,ADDRESS,SESSION".into());
            };
            Ok(Driver {
                operations,
                plan: plan.clone(),
                node: node.to_string(),
                address: address.to_string(),
                session: session.parse()?,
            })
        })
        .collect()
}

fn main() -> Result<(), Box<dyn error::Error>> {
    let threads: Vec<_> = drivers()?
        .into_iter()
        .map(|driver| thread::spawn(move || driver.drive()))
        .collect();
    for thread in threads {
        thread.join().map_err(|_| "a thread has panicked")??;
    }
    Ok(())
}
