//! The bytes of asks, and what the bytes of replies and refusals mean (docs/FORMATS.md).

use crate::error::{Error, Fault, Refusal};

const MAX_BODY: usize = 65_536;
const MAX_TEXT: usize = 64;
const MAX_ROWS: usize = 256;
const MAX_ROW_SET: usize = 32;
const MAX_SET: usize = 8_192;

/// No node takes a request beyond it.
pub(crate) const MAX_REQUEST: u64 = 1 << 62;

const ASK: u8 = 3;
const REPLY: u8 = 4;
const REFUSED: u8 = 5;

/// What a node has stored.
#[derive(Clone, Debug, PartialEq, Eq)]
pub struct Row {
    /// The node.
    pub node: u32,
    /// The number of its last write.
    pub number: u64,
    /// Its text, of at most 64 bytes.
    pub text: Vec<u8>,
    /// Its maximum.
    pub max: u64,
    /// Its flag.
    pub flag: bool,
    /// Its set, ascending.
    pub set: Vec<u32>,
}

/// What a client asks.
#[derive(Clone, Debug, PartialEq, Eq)]
pub(crate) enum Command {
    Store(Vec<u8>),
    Collect,
    Max(u64),
    ReadMax,
    Flag,
    ReadFlag,
    Add(u32),
    ReadSet,
}

/// What a node answers.
#[derive(Clone, Debug, PartialEq, Eq)]
pub(crate) enum Answer {
    Stored,
    Seen(Vec<Row>),
    Max(u64),
    Flag(bool),
    Set(Vec<u32>),
}

impl Command {
    /// A text that isn't too long.
    pub(crate) fn store(text: &[u8]) -> Result<Command, Error> {
        if text.len() > MAX_TEXT {
            let why = format!("a text has {MAX_TEXT} bytes at most, not {}", text.len());
            return Err(Error::InvalidArgument(why));
        }
        Ok(Command::Store(text.to_vec()))
    }

    /// Whether it changes nothing.
    pub(crate) fn is_reading(&self) -> bool {
        !self.gets(&Answer::Stored)
    }

    /// Whether the command gets such an answer.
    pub(crate) fn gets(&self, answer: &Answer) -> bool {
        match self {
            Command::Store(_) | Command::Max(_) | Command::Flag | Command::Add(_) => {
                matches!(answer, Answer::Stored)
            }
            Command::Collect => matches!(answer, Answer::Seen(_)),
            Command::ReadMax => matches!(answer, Answer::Max(_)),
            Command::ReadFlag => matches!(answer, Answer::Flag(_)),
            Command::ReadSet => matches!(answer, Answer::Set(_)),
        }
    }

    fn put(&self, out: &mut Vec<u8>) {
        match self {
            Command::Store(text) => {
                // A text has 64 bytes at most.
                out.extend([1, text.len() as u8]);
                out.extend(text);
            }
            Command::Collect => out.push(2),
            Command::Max(number) => {
                out.push(3);
                out.extend(number.to_be_bytes());
            }
            Command::ReadMax => out.push(4),
            Command::Flag => out.push(5),
            Command::ReadFlag => out.push(6),
            Command::Add(number) => {
                out.push(7);
                out.extend(number.to_be_bytes());
            }
            Command::ReadSet => out.push(8),
        }
    }
}

/// The frame of an ask.
pub(crate) fn encode_ask(session: u64, request: u64, command: &Command) -> Vec<u8> {
    let mut body = vec![ASK];
    body.extend(session.to_be_bytes());
    body.extend(request.to_be_bytes());
    command.put(&mut body);
    let mut frame = (body.len() as u32).to_be_bytes().to_vec();
    frame.extend(body);
    frame
}

/// What a node tells a client of one of its requests.
#[derive(Clone, Debug, PartialEq, Eq)]
pub(crate) struct Told {
    pub(crate) session: u64,
    pub(crate) request: u64,
    pub(crate) verdict: Verdict,
}

/// What became of a request.
#[derive(Clone, Debug, PartialEq, Eq)]
pub(crate) enum Verdict {
    Answered(Answer),
    Refused { refusal: Refusal, carried: u64 },
}

/// The length of a frame's body, by the frame's first four bytes.
pub(crate) fn decode_length(prefix: [u8; 4]) -> Result<usize, Fault> {
    match u32::from_be_bytes(prefix) as usize {
        0 => Err(Fault::Short),
        length if length > MAX_BODY => Err(Fault::TooLarge),
        length => Ok(length),
    }
}

/// What a node tells a client by the body of a frame: a fault for any other bytes.
pub(crate) fn decode_body(body: &[u8]) -> Result<Told, Fault> {
    let mut reader = Reader { rest: body };
    let kind = reader.u8()?;
    if kind != REPLY && kind != REFUSED {
        return Err(Fault::BadKind);
    }
    let session = reader.u64()?;
    let request = reader.u64()?;
    let verdict = if kind == REPLY {
        Verdict::Answered(reader.answer()?)
    } else {
        Verdict::Refused {
            refusal: Refusal::from_number(reader.u8()?).ok_or(Fault::BadKind)?,
            carried: reader.u64()?,
        }
    };
    reader.end()?;
    Ok(Told {
        session,
        request,
        verdict,
    })
}

/// Takes fields from the front of bytes.
struct Reader<'a> {
    rest: &'a [u8],
}

impl<'a> Reader<'a> {
    fn take(&mut self, count: usize) -> Result<&'a [u8], Fault> {
        if count > self.rest.len() {
            return Err(Fault::Short);
        }
        let (taken, rest) = self.rest.split_at(count);
        self.rest = rest;
        Ok(taken)
    }

    fn array<const COUNT: usize>(&mut self) -> Result<[u8; COUNT], Fault> {
        let mut array = [0; COUNT];
        array.copy_from_slice(self.take(COUNT)?);
        Ok(array)
    }

    fn u8(&mut self) -> Result<u8, Fault> {
        self.array().map(u8::from_be_bytes)
    }

    fn u16(&mut self) -> Result<u16, Fault> {
        self.array().map(u16::from_be_bytes)
    }

    fn u32(&mut self) -> Result<u32, Fault> {
        self.array().map(u32::from_be_bytes)
    }

    fn u64(&mut self) -> Result<u64, Fault> {
        self.array().map(u64::from_be_bytes)
    }

    fn flag(&mut self) -> Result<bool, Fault> {
        match self.u8()? {
            0 => Ok(false),
            1 => Ok(true),
            _ => Err(Fault::BadKind),
        }
    }

    fn ascending(&mut self, count: usize) -> Result<Vec<u32>, Fault> {
        let mut numbers: Vec<u32> = Vec::new();
        for _ in 0..count {
            let number = self.u32()?;
            if numbers.last().is_some_and(|before| number <= *before) {
                return Err(Fault::NotAscending);
            }
            numbers.push(number);
        }
        Ok(numbers)
    }

    fn end(&self) -> Result<(), Fault> {
        if self.rest.is_empty() {
            Ok(())
        } else {
            Err(Fault::Trailing)
        }
    }

    fn answer(&mut self) -> Result<Answer, Fault> {
        match self.u8()? {
            1 => Ok(Answer::Stored),
            2 => self.rows().map(Answer::Seen),
            3 => self.u64().map(Answer::Max),
            4 => self.flag().map(Answer::Flag),
            5 => {
                let count = at_most(self.u16()?.into(), MAX_SET)?;
                self.ascending(count).map(Answer::Set)
            }
            _ => Err(Fault::BadKind),
        }
    }

    fn rows(&mut self) -> Result<Vec<Row>, Fault> {
        let count = at_most(self.u16()?.into(), MAX_ROWS)?;
        let mut rows: Vec<Row> = Vec::new();
        for _ in 0..count {
            let node = self.u32()?;
            // 0 stands before the first node.
            if node <= rows.last().map_or(0, |row| row.node) {
                return Err(Fault::NotAscending);
            }
            rows.push(self.row(node)?);
        }
        Ok(rows)
    }

    fn row(&mut self, node: u32) -> Result<Row, Fault> {
        let number = self.u64()?;
        let length = at_most(self.u8()?.into(), MAX_TEXT)?;
        let text = self.take(length)?.to_vec();
        let max = self.u64()?;
        let flag = self.flag()?;
        let count = at_most(self.u8()?.into(), MAX_ROW_SET)?;
        let set = self.ascending(count)?;
        Ok(Row {
            node,
            number,
            text,
            max,
            flag,
            set,
        })
    }
}

fn at_most(count: usize, most: usize) -> Result<usize, Fault> {
    if count > most {
        return Err(Fault::TooLarge);
    }
    Ok(count)
}
