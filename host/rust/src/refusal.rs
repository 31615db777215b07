//! Why a call is refused.

use std::error::Error;
use std::fmt;

/// Why a call was refused, by the numbers of include/knobthistle.h. Where several apply, the first
/// in the order below is given.
#[derive(Clone, Copy, Debug, PartialEq, Eq, Hash)]
#[non_exhaustive]
pub enum Refusal {
    /// 1: the allowance is negative or a NaN. Minus zero is accepted.
    Allowance = 1,
    /// 12: the allowance is infinite. The largest finite one is accepted.
    InfiniteAllowance = 12,
    /// 2: the target or the cap is 0.
    Zero = 2,
    /// 13: the edition is neither 1 nor 2. This crate has no other, so none of its calls gives it.
    Edition = 13,
    /// 3: more than 256 columns or more than 4096 rows.
    Size = 3,
    /// 4: the columns differ in length, or there is not one weight for each column, or not one label for each row.
    Length = 4,
    /// 5: no column or no row.
    Empty = 5,
    /// 6: a scratch is too short. This crate lends enough, so none of its calls gives it.
    Scratch = 6,
    /// 14: a label of [`crate::thin_votes`] is neither 1 nor -1.
    Label = 14,
    /// 15: a bit of [`crate::Votes`] behind a column's last row is set. Only [`crate::Votes::from_bits`] can make such votes.
    SpareBit = 15,
    /// 7: an entry is not in [-1, 1]; a NaN is not.
    Entry = 7,
    /// 8: a weight, or a threshold of [`crate::turned_words`], is not finite.
    Weight = 8,
    /// 9: the sum of the weights' magnitudes is 0 or infinite.
    Sum = 9,
    /// 11: an entry of a colouring is not finite or exceeds 2^32 in magnitude.
    ColoringEntry = 11,
    /// 16: a buffer is shorter than the text of a sheet. This crate lends enough, so none of its calls gives it.
    Buffer = 16,
}

impl Refusal {
    /// Every refusal, in the order of the tests.
    pub const ALL: [Refusal; 15] = [
        Refusal::Allowance,
        Refusal::InfiniteAllowance,
        Refusal::Zero,
        Refusal::Edition,
        Refusal::Size,
        Refusal::Length,
        Refusal::Empty,
        Refusal::Scratch,
        Refusal::Label,
        Refusal::SpareBit,
        Refusal::Entry,
        Refusal::Weight,
        Refusal::Sum,
        Refusal::ColoringEntry,
        Refusal::Buffer,
    ];

    /// The number, 1 to 16; 10 is used for nothing.
    pub fn number(self) -> u64 {
        self as u64
    }

    /// What a call's number says: accepted, or refused and why.
    pub(crate) fn check(number: u64) -> Result<(), Refusal> {
        match Refusal::ALL.into_iter().find(|refusal| refusal.number() == number) {
            Some(refusal) => Err(refusal),
            None if number == 0 => Ok(()),
            None => unreachable!("the archive's calls answer 0 or a refusal's number, not {number}"),
        }
    }
}

impl fmt::Display for Refusal {
    fn fmt(&self, f: &mut fmt::Formatter) -> fmt::Result {
        f.write_str(match self {
            Refusal::Allowance => "the allowed change is negative or not a number",
            Refusal::InfiniteAllowance => "the allowed change is infinite",
            Refusal::Zero => "the target or the cap is 0",
            Refusal::Edition => "the edition is neither 1 nor 2",
            Refusal::Size => "there are more than 256 columns or more than 4096 rows",
            Refusal::Length => "the columns differ in length, or there is not one weight for each column or one label for each row",
            Refusal::Empty => "there is no column or no row",
            Refusal::Scratch => "a scratch is too short",
            Refusal::Label => "a label is neither 1 nor -1",
            Refusal::SpareBit => "a bit behind the last row of a column is set",
            Refusal::Entry => "an entry is not in [-1, 1]",
            Refusal::Weight => "a weight or a threshold is not finite",
            Refusal::Sum => "the sum of the weights' magnitudes is 0 or infinite",
            Refusal::ColoringEntry => "an entry is not finite or exceeds 2^32 in magnitude",
            Refusal::Buffer => "a buffer is shorter than the text",
        })
    }
}

impl Error for Refusal {}
