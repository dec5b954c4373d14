//! The wrapper over the proved library, with no other judge than document 01.
#![forbid(unsafe_code)]

use cellprism::{check_row, Answer, Relation, RowError, ELEMENT_BYTES, ROW_BYTES};
use std::error::Error;

const ONE_COLUMN: usize = 2048;
const OUTPUT_COLUMN: usize = 2049;
const RS1: usize = 0;
const RD: usize = 128;
const CARRY_0: usize = 448;
const CARRY_1: usize = 449;
const FLAG_SUB: usize = 768;
const FLAG_HALT: usize = 773;
const UNUSED: usize = 1127;

/// A row that is zero but for these elements.
fn row_with(elements: &[(usize, u128)]) -> Vec<u8> {
    let mut row = vec![0; ROW_BYTES];
    for &(column, value) in elements {
        let at = column * ELEMENT_BYTES;
        row[at..at + ELEMENT_BYTES].copy_from_slice(&value.to_le_bytes());
    }
    row
}

fn failed(relation: Relation, row: u32) -> Answer {
    Answer::Failed { relation, row }
}

#[test]
fn zero_row_is_accepted() {
    assert_eq!(check_row(&row_with(&[])), Answer::Accepted { rows: 514 });
}

#[test]
fn only_the_one_column_set_fails() {
    let row = row_with(&[(ONE_COLUMN, 1)]);
    assert_eq!(check_row(&row), failed(Relation::Bin, 263));
}

#[test]
fn every_other_length_is_refused() {
    let row = row_with(&[]);
    let longer = vec![0; 2 * ROW_BYTES];
    let refused = Answer::Refused { number: 2 };
    for len in [0, 1, 16, 17, ROW_BYTES / 2, ROW_BYTES - 16, ROW_BYTES - 1] {
        assert_eq!(check_row(&row[..len]), refused, "{len} bytes");
    }
    for len in [ROW_BYTES + 1, ROW_BYTES + 16, 2 * ROW_BYTES] {
        assert_eq!(check_row(&longer[..len]), refused, "{len} bytes");
    }
    assert!(check_row(&row[..ROW_BYTES]).is_accepted());
}

/// Bin row 0 is (T1[0] + CARRY[0]) (T2[0] + CARRY[0]) = CARRY[1] + CARRY[0].
#[test]
fn first_row_of_bin() {
    let row = row_with(&[(CARRY_1, 1)]);
    assert_eq!(check_row(&row), failed(Relation::Bin, 0));
}

/// Fld row 2 is SUB times the one column = CARRY[0], and bin row 0 holds of this row: 1 times 1 is 1.
#[test]
fn a_row_of_fld() {
    let row = row_with(&[(CARRY_0, 1)]);
    assert_eq!(check_row(&row), failed(Relation::Fld, 2));
    assert!(check_row(&row_with(&[(FLAG_SUB, 1)])).is_accepted());
}

/// Fld row 3 is HALT times the sum of the packed RD and the output. One byte of the output is set
/// at a time, the highest included.
#[test]
fn every_byte_of_an_element_counts() {
    for byte in 0..ELEMENT_BYTES {
        let row = row_with(&[(FLAG_HALT, 1), (OUTPUT_COLUMN, 1 << (8 * byte + 7))]);
        assert_eq!(check_row(&row), failed(Relation::Fld, 3), "byte {byte}");
    }
}

/// The same two halt rows hold where RD, RS1 and the output are all 256: bit 8 of the words, and
/// byte 1 of the element.
#[test]
fn elements_have_their_lowest_byte_first() {
    let row = row_with(&[
        (RS1 + 8, 1),
        (RD + 8, 1),
        (FLAG_HALT, 1),
        (OUTPUT_COLUMN, 256),
    ]);
    assert_eq!(check_row(&row), Answer::Accepted { rows: 514 });
}

#[test]
fn a_column_that_no_row_names_may_hold_anything() {
    let row = row_with(&[(UNUSED, u128::MAX), (ONE_COLUMN - 1, 1 << 127)]);
    assert_eq!(check_row(&row), Answer::Accepted { rows: 514 });
}

#[test]
fn the_row_is_only_read() {
    let row = row_with(&[(ONE_COLUMN, 1)]);
    let before = row.clone();
    let _ = check_row(&row);
    assert_eq!(row, before);
}

/// Of every kind a few words, and what they say. Kind 3 is not given, and reads as a refusal.
fn answers() -> Vec<(u32, Answer)> {
    let accepted = |rows| Answer::Accepted { rows };
    let refused = |number| Answer::Refused { number };
    vec![
        (0x0000_0000, accepted(0)),
        (0x0000_0202, accepted(514)),
        (0x3fff_ffff, accepted(0x3fff_ffff)),
        (0x4000_0000, failed(Relation::Bin, 0)),
        (0x4000_0107, failed(Relation::Bin, 263)),
        (0x4000_01ff, failed(Relation::Bin, 511)),
        (0x6000_0000, failed(Relation::Fld, 0)),
        (0x6000_001e, failed(Relation::Fld, 30)),
        (0x8000_0000, refused(0)),
        (0x8000_0002, refused(2)),
        (0x8000_000f, refused(15)),
        (0xc000_0000, refused(0)),
        (0xc000_0202, refused(514)),
        (0xffff_ffff, refused(0x3fff_ffff)),
    ]
}

#[test]
fn answers_are_read_by_their_bits() {
    for (word, answer) in answers() {
        assert_eq!(Answer::from(word), answer, "{word:08x}");
    }
}

#[test]
fn kind_0_alone_is_accepted() {
    for (word, _) in answers() {
        let answer = Answer::from(word);
        assert_eq!(answer.is_accepted(), word >> 30 == 0, "{word:08x}");
        assert_eq!(answer.into_result().is_ok(), word >> 30 == 0, "{word:08x}");
    }
}

#[test]
fn a_result_holds_what_the_answer_does() {
    for (word, answer) in answers() {
        let right = match answer {
            Answer::Accepted { rows } => Ok(rows),
            Answer::Failed { relation, row } => Err(RowError::Failed { relation, row }),
            Answer::Refused { number } => Err(RowError::Refused { number }),
            other => panic!("{other} is no answer that a word has"),
        };
        assert_eq!(Answer::from(word).into_result(), right, "{word:08x}");
    }
}

#[test]
fn results_of_rows() {
    let accepted = row_with(&[]);
    let fails_bin = row_with(&[(ONE_COLUMN, 1)]);
    let fails_fld = row_with(&[(CARRY_0, 1)]);
    let error = |relation, row| Err(RowError::Failed { relation, row });
    assert_eq!(check_row(&accepted).into_result(), Ok(514));
    let refused = check_row(&accepted[1..]).into_result();
    assert_eq!(refused, Err(RowError::Refused { number: 2 }));
    assert_eq!(
        check_row(&fails_bin).into_result(),
        error(Relation::Bin, 263)
    );
    assert_eq!(check_row(&fails_fld).into_result(), error(Relation::Fld, 2));
}

/// A caller with errors of several types takes any of them, and can ask later which it was.
#[test]
fn an_error_passes_through_a_box() {
    fn rows_tested(row: &[u8]) -> Result<u32, Box<dyn Error + Send + Sync>> {
        Ok(check_row(row).into_result()?)
    }
    assert_eq!(rows_tested(&row_with(&[])).ok(), Some(514));
    let error = rows_tested(&[]).expect_err("no byte is no row");
    assert_eq!(
        error.downcast_ref(),
        Some(&RowError::Refused { number: 2 }),
        "{error}"
    );
}

/// `rowcheck` has `bin=483 fld=31` for `rows=514`, and two counts behind a failure.
#[test]
fn answers_print_as_rowcheck_does_but_for_the_counts() {
    let texts = [
        (0x0000_0202, "accepted rows=514"),
        (0x4000_0107, "failed bin row=263"),
        (0x6000_0003, "failed fld row=3"),
        (0x8000_0002, "refused 2"),
    ];
    for (word, text) in texts {
        assert_eq!(Answer::from(word).to_string(), text);
    }
}

#[test]
fn errors_print_as_sentences() {
    let texts = [
        (0x4000_0107, "row 263 of relation bin does not hold"),
        (0x6000_0003, "row 3 of relation fld does not hold"),
        (0x8000_0002, "refused with 2: a row has 65536 bytes"),
        (0x8000_0006, "refused with 6"),
    ];
    for (word, text) in texts {
        let error = Answer::from(word).into_result().expect_err(text);
        assert_eq!(error.to_string(), text);
    }
}
