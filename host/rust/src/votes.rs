//! Votes that are yes or no, one bit each.

use crate::lent::{MAX_COLUMNS, MAX_ROWS};
use std::error::Error;
use std::fmt;

/// A matrix of yes-or-no votes, one bit a margin: [`thin`](crate::thin), [`thin_all`](crate::thin_all), [`color`](crate::color),
/// [`max_margin_change`](crate::max_margin_change) and [`turned_words`](crate::turned_words) take it in the place of columns of doubles, read
/// the bits where they stand, and give the very answers that they give for the columns of 1 and -1.
///
/// A yes is the margin 1, a no the margin -1. As for doubles, columns of different lengths and sizes beyond the limits are refused by the
/// calls, by [`Refusal::Length`](crate::Refusal::Length) and [`Refusal::Size`](crate::Refusal::Size), and not here.
///
/// ```
/// use knobthistle::{thin, Edition, Job, Rule, Votes};
///
/// let votes = Votes::from_bools(&[[true, true], [true, false]]);
/// let job = Job { seed: 0, edition: Edition::First, rule: Rule::Within { allowance: 0.5, cap: None } };
/// assert_eq!(thin(&votes, &[1.0, 3.0], job), thin(&[vec![1.0, 1.0], vec![1.0, -1.0]], &[1.0, 3.0], job));
/// assert_eq!(votes, Votes::from_signs(&[[1.0, 1.0], [1.0, -1.0]])?);
/// # Ok::<(), knobthistle::NotAVote>(())
/// ```
#[derive(Clone, Debug, PartialEq, Eq, Hash)]
pub struct Votes {
    bits: Vec<u8>,
    m: usize,
    n: usize,
}

impl Votes {
    /// Columns of yes and no: `true` is a yes, the margin 1, and `false` a no, the margin -1.
    ///
    /// ```
    /// use knobthistle::Votes;
    ///
    /// let votes = Votes::from_bools(&[vec![true, false, false]]);
    /// assert_eq!((votes.columns(), votes.rows(), votes.bits()), (1, 3, &[0b110][..]));
    /// ```
    pub fn from_bools<C: AsRef<[bool]>>(columns: &[C]) -> Votes {
        let columns: Vec<&[bool]> = columns.iter().map(AsRef::as_ref).collect();
        Votes::packed(&columns, |yes| !yes)
    }

    /// Columns of 1 and -1, in doubles or in any numbers that have a place in them, as `f64`, `f32`, `i8` and `i32`.
    ///
    /// # Errors
    ///
    /// [`NotAVote`] says where the first entry stands that is neither 1 nor -1: a NaN and a zero are neither.
    ///
    /// ```
    /// use knobthistle::Votes;
    ///
    /// assert_eq!(Votes::from_signs(&[vec![1i8, -1]]), Ok(Votes::from_bools(&[[true, false]])));
    /// let why = Votes::from_signs(&[vec![1.0, -1.0], vec![1.0, 0.5]]).unwrap_err();
    /// assert_eq!((why.column, why.row), (1, 1));
    /// ```
    pub fn from_signs<C: AsRef<[T]>, T: Copy + Into<f64>>(columns: &[C]) -> Result<Votes, NotAVote> {
        let columns: Vec<&[T]> = columns.iter().map(AsRef::as_ref).collect();
        for (column, entries) in columns.iter().enumerate() {
            if let Some(row) = entries.iter().position(|entry| (*entry).into().abs() != 1.0) {
                return Err(NotAVote { column, row });
            }
        }
        Ok(Votes::packed(&columns, |entry| entry.into() < 0.0))
    }

    /// Bits that are packed already, m columns of n rows: a bit is set for a no, row 0 is the lowest bit of a column's first byte, and a
    /// column begins on a byte, so that it has ⌈n/8⌉. They are lent as they are. Another number of bytes than m·⌈n/8⌉ is refused by the
    /// calls by [`Refusal::Length`](crate::Refusal::Length), and a bit behind a column's last row that is set by
    /// [`Refusal::SpareBit`](crate::Refusal::SpareBit).
    ///
    /// ```
    /// use knobthistle::{max_margin_change, Refusal, Votes};
    ///
    /// let change = |bits: &[u8]| max_margin_change(&Votes::from_bits(bits.to_vec(), 2, 3), &[0.5, 0.5], &[1.0, 0.0]);
    /// assert_eq!(change(&[0b000, 0b110]), Ok(1.0));
    /// assert_eq!(change(&[0b000, 0b1110]), Err(Refusal::SpareBit));
    /// assert_eq!(change(&[0b000]), Err(Refusal::Length));
    /// ```
    pub fn from_bits(bits: Vec<u8>, m: usize, n: usize) -> Votes {
        Votes { bits, m, n }
    }

    /// How many columns there are.
    pub fn columns(&self) -> usize {
        self.m
    }

    /// How many rows: those of the first column.
    pub fn rows(&self) -> usize {
        self.n
    }

    /// The bytes, as [`Votes::from_bits`] takes them. Where columns differ in length or are beyond the limits there is one byte alone.
    pub fn bits(&self) -> &[u8] {
        &self.bits
    }

    /// Columns that the archive has to refuse for their sizes or lengths are not packed. It is lent a single byte in their place, and says
    /// itself which number is the lowest: beyond the limits that is at most 3, whatever is lent; and where two columns differ in length,
    /// there are two or more or no bytes, so that number 4 applies.
    fn packed<T: Copy>(columns: &[&[T]], is_no: impl Fn(T) -> bool) -> Votes {
        let (m, n) = (columns.len(), columns.first().map_or(0, |column| column.len()));
        let taken = m <= MAX_COLUMNS && n <= MAX_ROWS && columns.iter().all(|column| column.len() == n);
        let byte = |rows: &[T]| rows.iter().rev().fold(0, |byte, row| byte << 1 | u8::from(is_no(*row)));
        let bits = if taken { columns.iter().flat_map(|column| column.chunks(8)).map(byte).collect() } else { vec![0] };
        Votes { bits, m, n }
    }
}

/// Why columns are no [`Votes`]: an entry is neither 1 nor -1.
#[derive(Clone, Copy, Debug, PartialEq, Eq, Hash)]
pub struct NotAVote {
    /// The first column that has such an entry.
    pub column: usize,
    /// Its first row that is such an entry.
    pub row: usize,
}

impl fmt::Display for NotAVote {
    fn fmt(&self, f: &mut fmt::Formatter) -> fmt::Result {
        write!(f, "the entry of column {} and row {} is neither 1 nor -1", self.column, self.row)
    }
}

impl Error for NotAVote {}
