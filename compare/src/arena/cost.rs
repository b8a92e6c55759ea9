//! 02, L6: "Among all allowed logs of n rows, n from 0 to 2,048, no opening writes more than n rows. A log of
//! n rows reaches n exactly when each of its rows is a begin or a change. .. For n above 2,048 the bound is
//! 4,096 - n."

use crate::paper::{Row, BEGIN, CHANGE};
use crate::store::Answer;

/// The most rows that an opening of a log of n rows writes.
pub fn bound(n: usize) -> usize {
    n.min(4_096 - n)
}

pub fn all_begins_and_changes(rows: &[Row]) -> bool {
    rows.iter().all(|row| matches!(row.kind, BEGIN | CHANGE))
}

/// An opening that answers 0 or 5 has found these rows. One that is cut may write fewer than it would.
pub fn judge(found: &[Row], answer: Answer) -> Result<(), String> {
    let (n, written) = (found.len(), usize::from(answer.writes.rows));
    let reaches = written == n;
    let costliest = all_begins_and_changes(found);
    if written <= bound(n) && (reaches == costliest || (answer.number == 5 && costliest)) {
        return Ok(());
    }
    Err(format!("an opening of a log of {n} rows writes {written}, all begins and changes: {costliest}"))
}
