//! What all nodes had at one moment.

use crate::error::Error;
use crate::wire::Row;
use crate::Result;

/// What all nodes had at one moment.
#[derive(Clone, Debug, PartialEq, Eq)]
pub struct Snapshot {
    /// The rows as `collect` gives them.
    pub rows: Vec<Row>,
    /// How many collects it took, 2 at least.
    pub collects: u64,
}

/// Collects until two collects in a row show the same rows, or until one fails.
pub(crate) fn take_snapshot(mut collect: impl FnMut() -> Result<Vec<Row>>) -> Result<Snapshot> {
    let mut last = None;
    let mut collects = 0;
    loop {
        let rows = collect().map_err(|why| behind(collects, why))?;
        collects += 1;
        if last.as_ref() == Some(&rows) {
            return Ok(Snapshot { rows, collects });
        }
        last = Some(rows);
    }
}

// Why a collect failed behind so many others: no two in a row of these agree.
fn behind(answered: u64, why: Error) -> Error {
    match why {
        Error::DeadlineExceeded {
            is_pending, cause, ..
        } if answered > 1 => Error::DeadlineExceeded {
            is_pending,
            cause,
            collects: answered,
        },
        why => why,
    }
}
