//! The numbered refusals.

use std::error::Error;
use std::fmt;

/// Why a call was refused. A refused call has changed nothing that its caller can see.
///
/// The numbers are those of the C interface. Where several refusals apply, the one that is tested first is
/// answered: planning tests 1 to 7 in that order, gathering 12, 3, 2, 11, reading 8 and then 7, deletions 9,
/// then planning's or 8, then 10.
///
/// ```
/// use pelisafu::{Refusal, RowSet};
///
/// let refusal = RowSet::new(3, 10, &[4, 0, 4, 0]).unwrap_err();
/// assert_eq!(refusal, Refusal::Body);
/// assert_eq!(refusal.number(), 8);
/// assert_eq!(refusal.to_string(), "refusal 8: tag, span and body are not those of a row set");
/// ```
#[derive(Clone, Copy, Debug, PartialEq, Eq, PartialOrd, Ord, Hash)]
#[non_exhaustive]
#[repr(u8)]
pub enum Refusal {
    /// 1: the coverage ends before it starts, is empty, or is longer than 4,294,967,295 rows.
    Coverage = 1,
    /// 2: there are no rows or more than 65,535; in gathering, the total would pass 65,535.
    RowCount = 2,
    /// 3: the rows do not rise strictly or leave the coverage; in gathering, a row is not above the last one.
    Order = 3,
    /// 4: the seed ends do not rise from 1 or more up to the row count, or a seed's last row is more
    /// than 65,534 above its first.
    SeedEnds = 4,
    /// 5: the workspace is below 24 words for each seed. A [`Planner`](crate::Planner) has enough.
    Workspace = 5,
    /// 6: the shortest body is longer than the limit, or than 65,535 bytes.
    Limit = 6,
    /// 7: an output is shorter than what is to be written.
    Output = 7,
    /// 8: tag, span and body are not those of a row set.
    Body = 8,
    /// 9: a block's row count is 0 or above the block limit, or a deletion section's stated count or length is
    /// none that the block can have.
    Block = 9,
    /// 10: the body's count differs from the stated one.
    Count = 10,
    /// 11: the table of seed ends lacks room. A [`Gatherer`](crate::Gatherer) makes room.
    Table = 11,
    /// 12: the gatherer's record is none that gathering comes to. A [`Gatherer`](crate::Gatherer) keeps its own.
    Record = 12,
}

impl Refusal {
    /// Every refusal, in the order of the numbers.
    pub const ALL: [Refusal; 12] = [
        Refusal::Coverage,
        Refusal::RowCount,
        Refusal::Order,
        Refusal::SeedEnds,
        Refusal::Workspace,
        Refusal::Limit,
        Refusal::Output,
        Refusal::Body,
        Refusal::Block,
        Refusal::Count,
        Refusal::Table,
        Refusal::Record,
    ];

    /// The number, 1 to 12.
    pub const fn number(self) -> u8 {
        self as u8
    }

    /// The refusal of a number, if it is one.
    ///
    /// ```
    /// # use pelisafu::Refusal;
    /// assert_eq!(Refusal::from_number(8), Some(Refusal::Body));
    /// assert_eq!(Refusal::from_number(0), None);
    /// ```
    pub const fn from_number(number: u8) -> Option<Refusal> {
        match number {
            1..=12 => Some(Self::ALL[number as usize - 1]),
            _ => None,
        }
    }

    /// What is wrong, in a plain sentence without its number.
    pub const fn sentence(self) -> &'static str {
        match self {
            Self::Coverage => "the coverage is reversed, empty, or longer than 4,294,967,295 rows",
            Self::RowCount => "there are no rows, or more than 65,535",
            Self::Order => "the rows do not rise strictly, or one is outside the coverage",
            Self::SeedEnds => {
                "the seed ends do not fit the rows, or a seed is wider than 65,535 row numbers"
            }
            Self::Workspace => "the workspace has less than 24 words for each seed",
            Self::Limit => "the shortest body is longer than the limit, or than 65,535 bytes",
            Self::Output => "the output is shorter than what is to be written",
            Self::Body => "tag, span and body are not those of a row set",
            Self::Block => "the row count, the stated count or the length does not fit the block",
            Self::Count => "the body's count differs from the stated one",
            Self::Table => "the table of seed ends has no room for the new ones",
            Self::Record => "the gatherer's record is none that gathering comes to",
        }
    }
}

impl fmt::Display for Refusal {
    fn fmt(&self, f: &mut fmt::Formatter<'_>) -> fmt::Result {
        write!(f, "refusal {}: {}", self.number(), self.sentence())
    }
}

impl Error for Refusal {}

impl From<Refusal> for u8 {
    fn from(refusal: Refusal) -> u8 {
        refusal.number()
    }
}

#[cfg(test)]
mod tests {
    use super::*;
    use std::collections::HashSet;

    #[test]
    fn numbers_and_sentences_are_distinct() {
        let numbers: Vec<u8> = Refusal::ALL.iter().map(|refusal| refusal.number()).collect();
        assert_eq!(numbers, (1..=12).collect::<Vec<u8>>());
        let sentences: HashSet<&str> = Refusal::ALL.iter().map(|r| r.sentence()).collect();
        assert_eq!(sentences.len(), 12);
    }

    #[test]
    fn every_number_goes_there_and_back() {
        for number in 0..=u8::MAX {
            let back = Refusal::from_number(number).map(u8::from);
            assert_eq!(back, (1..=12).contains(&number).then_some(number));
        }
    }

    #[test]
    fn it_is_an_error() {
        let error: Box<dyn Error + Send + Sync> = Box::new(Refusal::Limit);
        assert!(error.to_string().starts_with("refusal 6: "));
    }
}
