//! The check of one row of the RV64I circuit, as a prover written in Rust calls it.
//!
//! A row is `z = (w, 1, x)` of one cycle: 4,096 elements of GF(2^128), each as 16 bytes, the lowest
//! byte first. The check behind [`check_row`] is proved; this crate only gives its answer a type.
//!
//! ```
//! use cellprism::{check_row, Answer, ROW_BYTES};
//!
//! let row = vec![0; ROW_BYTES];
//! assert_eq!(check_row(&row), Answer::Accepted { rows: 514 });
//! ```
//!
//! The 514 are the rows tested in both relations together, 483 in bin and 31 in fld. This crate has
//! the C answer alone, which carries no more than their sum.
//!
//! A caller that goes on only with an accepted row takes the answer as a [`Result`]:
//!
//! ```
//! use cellprism::{check_row, RowError, ROW_BYTES};
//!
//! fn rows_tested(row: &[u8]) -> Result<u32, RowError> {
//!     let rows = check_row(row).into_result()?;
//!     Ok(rows)
//! }
//!
//! assert_eq!(rows_tested(&[0; ROW_BYTES]), Ok(514));
//! assert_eq!(rows_tested(&[]), Err(RowError::Refused { number: 2 }));
//! ```
#![warn(missing_docs)]

use std::error::Error;
use std::fmt;

/// Elements of a row.
pub const ELEMENTS: usize = 4096;

/// Bytes of an element.
pub const ELEMENT_BYTES: usize = 16;

/// Bytes of a row.
pub const ROW_BYTES: usize = ELEMENTS * ELEMENT_BYTES;

/// The question of document 01 that asks for a row's length.
const LENGTH: u32 = 2;

mod c {
    extern "C" {
        pub fn cellprism_check_row(bytes: *const u8, len: usize) -> u32;
    }
}

/// The two relations of the circuit.
#[derive(Clone, Copy, Debug, PartialEq, Eq, Hash)]
pub enum Relation {
    /// Over single bits: 483 rows.
    Bin,
    /// Over packed words: 31 rows.
    Fld,
}

/// What the check says of a row. Of an accepted one it has a single count, the sum of the rows tested
/// in bin and in fld.
///
/// A match on it ends with an arm for whatever else there may be. That arm is not one for acceptance:
///
/// ```
/// use cellprism::{check_row, Answer};
///
/// match check_row(&[]) {
///     Answer::Accepted { rows } => println!("{rows} constraints hold"),
///     answer => println!("not accepted: {answer}"),
/// }
/// ```
///
/// One that names today's three alone does not compile:
///
/// ```compile_fail
/// use cellprism::{check_row, Answer};
///
/// match check_row(&[]) {
///     Answer::Accepted { .. } => {}
///     Answer::Failed { .. } => {}
///     Answer::Refused { .. } => {}
/// }
/// ```
#[must_use]
#[non_exhaustive]
#[derive(Clone, Copy, Debug, PartialEq, Eq, Hash)]
pub enum Answer {
    /// Every constraint holds.
    Accepted {
        /// How many were tested: the sum of the rows tested in bin and in fld, 483 + 31 = 514.
        rows: u32,
    },
    /// A constraint does not hold, and all before it do: bin comes before fld.
    Failed {
        /// The relation that the constraint is of.
        relation: Relation,
        /// The constraint's row in that relation.
        row: u32,
    },
    /// The row was not judged.
    Refused {
        /// That of the question in document 01 that was answered with no. Of a row of another length
        /// than [`ROW_BYTES`] it is 2.
        number: u32,
    },
}

impl Answer {
    /// Whether every constraint holds.
    #[must_use]
    pub fn is_accepted(self) -> bool {
        matches!(self, Answer::Accepted { .. })
    }

    /// The number of constraints tested, in bin and in fld together, or why the row was not accepted.
    ///
    /// ```
    /// use cellprism::{Answer, Relation, RowError};
    ///
    /// assert_eq!(Answer::Accepted { rows: 514 }.into_result(), Ok(514));
    ///
    /// let relation = Relation::Bin;
    /// let failed = Answer::Failed { relation, row: 263 };
    /// assert_eq!(failed.into_result(), Err(RowError::Failed { relation, row: 263 }));
    /// ```
    ///
    /// # Errors
    ///
    /// Every answer but [`Answer::Accepted`].
    pub fn into_result(self) -> Result<u32, RowError> {
        match self {
            Answer::Accepted { rows } => Ok(rows),
            Answer::Failed { relation, row } => Err(RowError::Failed { relation, row }),
            Answer::Refused { number } => Err(RowError::Refused { number }),
        }
    }
}

/// Why a row was not accepted.
///
/// ```
/// use cellprism::{check_row, RowError};
///
/// match check_row(&[]).into_result() {
///     Ok(rows) => println!("{rows} constraints hold"),
///     Err(RowError::Failed { relation, row }) => println!("look at row {row} of {relation}"),
///     Err(error) => println!("{error}"),
/// }
/// ```
#[non_exhaustive]
#[derive(Clone, Copy, Debug, PartialEq, Eq, Hash)]
pub enum RowError {
    /// The row was judged, and a constraint does not hold: [`Answer::Failed`].
    Failed {
        /// The relation that the constraint is of.
        relation: Relation,
        /// The constraint's row in that relation.
        row: u32,
    },
    /// The call was refused, and the row not judged: [`Answer::Refused`].
    Refused {
        /// That of the question in document 01 that was answered with no.
        number: u32,
    },
}

impl Error for RowError {}

impl fmt::Display for RowError {
    fn fmt(&self, f: &mut fmt::Formatter<'_>) -> fmt::Result {
        match self {
            RowError::Failed { relation, row } => {
                write!(f, "row {row} of relation {relation} does not hold")
            }
            RowError::Refused { number: LENGTH } => {
                write!(f, "refused with {LENGTH}: a row has {ROW_BYTES} bytes")
            }
            RowError::Refused { number } => write!(f, "refused with {number}"),
        }
    }
}

/// Reads the 32-bit answer of the C boundary by document 01, "Makers and readers":
///
/// | bits 31, 30 | kind | the other bits |
/// |---|---|---|
/// | 0 | accepted | 29 to 0: rows tested, in bin and in fld together |
/// | 1 | failed | 29: the relation as in a row mark, 0 bin and 1 fld; 8 to 0: the row |
/// | 2 | refused | 29 to 0: the number |
///
/// Kind 3 is never given. It reads as a refusal, so that nothing unknown is taken for accepted.
impl From<u32> for Answer {
    fn from(word: u32) -> Answer {
        let below_kind = word & 0x3fff_ffff;
        match word >> 30 {
            0 => Answer::Accepted { rows: below_kind },
            1 => Answer::Failed {
                relation: relation_of(word),
                row: word & 0x1ff,
            },
            _ => Answer::Refused { number: below_kind },
        }
    }
}

fn relation_of(word: u32) -> Relation {
    if word >> 29 & 1 == 0 {
        Relation::Bin
    } else {
        Relation::Fld
    }
}

/// Checks one row against the constraints of the circuit.
///
/// Any bytes may be given, of any length; they are only read. Nothing is allocated, and no state is
/// kept between calls, so it may be called from several threads at once. It needs less than 256 KB
/// of stack.
pub fn check_row(row: &[u8]) -> Answer {
    // SAFETY: the pointer is valid for reads of `len` bytes as long as `row` is borrowed, and the
    // function, proved total and in bounds, reads those bytes and keeps nothing.
    Answer::from(unsafe { c::cellprism_check_row(row.as_ptr(), row.len()) })
}

/// The words of program `rowcheck`, but for its counts. The program has the verdict itself, in which
/// bin and fld are counted apart, and prints `accepted bin=483 fld=31`. The C answer carries only
/// their sum, printed here as `accepted rows=514`, and no count with a failure.
impl fmt::Display for Answer {
    fn fmt(&self, f: &mut fmt::Formatter<'_>) -> fmt::Result {
        match self {
            Answer::Accepted { rows } => write!(f, "accepted rows={rows}"),
            Answer::Failed { relation, row } => write!(f, "failed {relation} row={row}"),
            Answer::Refused { number } => write!(f, "refused {number}"),
        }
    }
}

impl fmt::Display for Relation {
    fn fmt(&self, f: &mut fmt::Formatter<'_>) -> fmt::Result {
        f.write_str(match self {
            Relation::Bin => "bin",
            Relation::Fld => "fld",
        })
    }
}
