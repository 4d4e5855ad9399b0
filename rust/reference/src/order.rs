//! Timestamp order and the verdict on two records: 'Plain network and recorded
//! order' in document 01.

use crate::record::Record;
use crate::refusal::Refusal;
use crate::Counts;

/// The verdict on two timestamps.
#[derive(Clone, Copy, Debug, PartialEq, Eq, Hash)]
pub enum Verdict {
    /// The first is less.
    Before,
    /// The second is less.
    After,
    /// They are equal.
    Same,
    /// None of these: concurrent.
    Unordered,
}

/// Less when different and no count greater.
pub fn less(a: &Counts, b: &Counts) -> bool {
    a != b && a.iter().zip(b).all(|(x, y)| x <= y)
}

/// The verdict on two timestamps.
pub fn compare(a: &Counts, b: &Counts) -> Verdict {
    if a == b {
        Verdict::Same
    } else if less(a, b) {
        Verdict::Before
    } else if less(b, a) {
        Verdict::After
    } else {
        Verdict::Unordered
    }
}

/// The verdict on two records of one phase: 10 for different phases.
pub fn verdict_of_records(a: &Record, b: &Record) -> Result<Verdict, Refusal> {
    if a.phase != b.phase {
        return Err(Refusal::DifferentPhases);
    }
    Ok(compare(&a.counts, &b.counts))
}

/// The verdict on two records' bytes: 1 if either is no record, then 10 for
/// different phases.
pub fn verdict(a: &[u8], b: &[u8]) -> Result<Verdict, Refusal> {
    let (a, b) = (Record::read(a)?, Record::read(b)?);
    verdict_of_records(&a, &b)
}
