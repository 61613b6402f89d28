//! What changed between one collect and the next.

use crate::client::Client;
use crate::wire::Row;
use crate::Result;
use std::collections::{HashMap, VecDeque};
use std::thread;
use std::time::{Duration, Instant};

/// A node's row appeared or changed. Rows never go away.
#[derive(Clone, Debug, PartialEq, Eq)]
pub struct Change {
    /// The node.
    pub node: u32,
    /// Its row before, none where it appeared.
    pub old: Option<Row>,
    /// Its row now.
    pub new: Row,
}

/// The changes of a cluster's rows, without end; the first collect makes each row appear.
///
/// Where a collect fails its error comes, and the watch stands as it was: whoever goes on has missed no change but those
/// that were followed by another one of the same node between two collects.
pub struct Watch<'a> {
    client: &'a mut Client,
    interval: Duration,
    // When the last collect began.
    began: Option<Instant>,
    rows: HashMap<u32, Row>,
    changes: VecDeque<Change>,
}

impl<'a> Watch<'a> {
    pub(crate) fn new(client: &'a mut Client, interval: Duration) -> Self {
        Watch {
            client,
            interval,
            began: None,
            rows: HashMap::new(),
            changes: VecDeque::new(),
        }
    }

    fn look(&mut self) -> Result<()> {
        if let Some(began) = self.began {
            thread::sleep(self.interval.saturating_sub(began.elapsed()));
        }
        self.began = Some(Instant::now());
        for new in self.client.collect()? {
            let old = self.rows.insert(new.node, new.clone());
            // Under one number a node never has two values.
            if old.as_ref().map(|row| row.number) != Some(new.number) {
                let node = new.node;
                self.changes.push_back(Change { node, old, new });
            }
        }
        Ok(())
    }
}

impl Iterator for Watch<'_> {
    type Item = Result<Change>;

    fn next(&mut self) -> Option<Self::Item> {
        loop {
            if let Some(change) = self.changes.pop_front() {
                return Some(Ok(change));
            }
            if let Err(why) = self.look() {
                return Some(Err(why));
            }
        }
    }
}
