//! The proved library as Rust sees it: safe functions over its C functions.
//!
//! The C functions take numbers and lent slices (pointer, then length), return numbers, and are
//! proved total and in bounds, so a call has nothing that its caller could get wrong. This is the
//! one crate of the workspace with `unsafe` in it.

pub mod stack;

use std::ops::Range;

/// The columns below 2,048 that the check of an accepted batch looks at: those that rows name, and some
/// that lie between them. Of the public ones it looks at the two that rows name.
pub const LOOKED_AT: [Range<usize>; 2] = [0..960, 1024..1152];

/// A question that was answered with no, and where.
#[derive(Clone, Copy, Debug, PartialEq, Eq)]
pub struct Refusal {
    pub number: u64,
    pub place: usize,
}

impl Refusal {
    /// The number that stands for it at the boundary: 2^63 + number · 2^32 + place. A place from 2^32 - 1
    /// on, which nothing that is lent has, crosses as that.
    pub fn answer(self) -> u64 {
        1 << 63 | self.number << 32 | self.place as u64
    }
}

/// A value, or a refusal.
pub type Answer = Result<u64, Refusal>;

mod c {
    extern "C" {
        pub fn compare_add(a_lo: u64, a_hi: u64, b_lo: u64, b_hi: u64, word: u32) -> u64;
        pub fn compare_mul(a_lo: u64, a_hi: u64, b_lo: u64, b_hi: u64, word: u32) -> u64;
        pub fn compare_shl(lo: u64, hi: u64, k: u32, word: u32) -> u64;
        pub fn compare_times_power(lo: u64, hi: u64, k: u32, word: u32) -> u64;
        pub fn compare_geometry(cpi: usize, part: u32) -> u64;
        pub fn compare_map_col(cpi: usize, column: usize, cycle: usize) -> u64;
        pub fn compare_map_z_col(cpi: usize, column: usize, cycle: usize) -> u64;
        pub fn compare_exponent(cpi: usize) -> u32;
        pub fn compare_scratch_fits(words: usize) -> u32;
        pub fn compare_way_back(cpi: usize, batch_column: usize, part: u32) -> u64;
        pub fn compare_row_way_back(cpi: usize, relation: u32, batch_row: usize, part: u32) -> u64;
        pub fn compare_listing_word(which: u32, i: usize) -> u32;
        pub fn compare_batched(cpi: usize, cycle: usize, word: u32) -> u64;
        pub fn compare_read_word(word: u32, part: u32) -> u64;
        pub fn compare_layout(i: usize) -> u64;
        pub fn compare_segment(i: usize, part: u32) -> u64;
        pub fn compare_width(i: usize) -> u64;
        pub fn compare_default_cpi() -> u64;
        pub fn compare_check_row(
            way: u32,
            cpi: usize,
            listing: *const u32,
            listing_len: usize,
            batch: *const u64,
            batch_len: usize,
            scratch: *mut u64,
            scratch_len: usize,
        ) -> u64;
        pub fn compare_check_known(
            which: u32,
            way: u32,
            cpi: usize,
            batch: *const u64,
            batch_len: usize,
        ) -> u64;
        pub fn compare_fill_and_check(
            which: u32,
            cpi: usize,
            batch: *mut u64,
            batch_len: usize,
        ) -> u64;
        pub fn compare_is_known(which: u32, listing: *const u32, listing_len: usize) -> u64;
        pub fn compare_pack_named(
            cpi: usize,
            batch: *const u64,
            batch_len: usize,
            out: *mut u64,
            out_len: usize,
        ) -> u64;
        pub fn compare_pack(
            cpi: usize,
            batch: *const u64,
            batch_len: usize,
            out: *mut u64,
            out_len: usize,
        ) -> u64;
        pub fn compare_pack_cycles(
            cpi: usize,
            batch: *const u64,
            batch_len: usize,
            out: *mut u64,
            out_len: usize,
        ) -> u64;
        pub fn compare_unpack(
            cpi: usize,
            words: *const u64,
            words_len: usize,
            batch: *mut u64,
            batch_len: usize,
        ) -> u64;
        pub fn compare_to_cycles(
            cpi: usize,
            words: *const u64,
            words_len: usize,
            out: *mut u64,
            out_len: usize,
        ) -> u64;
        pub fn compare_to_batch(
            cpi: usize,
            words: *const u64,
            words_len: usize,
            out: *mut u64,
            out_len: usize,
        ) -> u64;
        pub fn compare_merge(
            first_cpi: usize,
            first: *const u64,
            first_len: usize,
            second_cpi: usize,
            second: *const u64,
            second_len: usize,
            batch: *mut u64,
            batch_len: usize,
        ) -> u64;
        pub fn compare_read(words: *const u64, words_len: usize) -> u64;
        pub fn compare_read_bytes(bytes: *const u8, bytes_len: usize) -> u64;
        pub fn compare_clear(scratch: *mut u64, scratch_len: usize);
        pub fn compare_apply(
            cpi: usize,
            listing: *const u32,
            listing_len: usize,
            batch: *const u64,
            batch_len: usize,
            relation: u32,
            row: usize,
            cycle: usize,
            out: *mut u64,
            out_len: usize,
        ) -> u64;
        pub fn compare_page(
            cpi: usize,
            listing: *const u32,
            listing_len: usize,
            batch: *const u64,
            batch_len: usize,
            relation: u32,
            row: usize,
            cycle: usize,
            page: *mut u8,
            page_len: usize,
        ) -> u64;
        pub fn compare_page_bytes(
            listing: *const u32,
            listing_len: usize,
            relation: u32,
            row: usize,
        ) -> u64;
        pub fn compare_bit_test(cpi: usize, batch: *const u64, batch_len: usize) -> u64;
        pub fn compare_reader(
            listing: *const u32,
            listing_len: usize,
            relation: u32,
            row: usize,
            next_relation: u32,
            next_row: usize,
            i: usize,
            out: *mut u64,
            out_len: usize,
        ) -> u64;
        pub fn compare_find_row(
            opened: u32,
            listing: *const u32,
            listing_len: usize,
            relation: u32,
            row: usize,
            part: u32,
        ) -> u64;
        pub fn compare_row_part(
            listing: *const u32,
            listing_len: usize,
            relation: u32,
            row: usize,
            i: usize,
        ) -> u64;
        pub fn compare_part_at(
            listing: *const u32,
            listing_len: usize,
            refused: u32,
            start: usize,
            end: usize,
            i: usize,
        ) -> u64;
        pub fn compare_fill(cpi: usize, batch: *mut u64, batch_len: usize) -> u64;
        pub fn compare_first_unmet(
            cpi: usize,
            batch: *const u64,
            batch_len: usize,
            cycle: usize,
        ) -> u64;
        pub fn compare_witness_row(
            record: *const u64,
            record_len: usize,
            rom_row: *const u64,
            rom_row_len: usize,
            public: *const u64,
            public_len: usize,
            row: *mut u64,
            row_len: usize,
        ) -> u64;
        pub fn compare_assemble(
            cpi: usize,
            cycles: *const u64,
            cycles_len: usize,
            public: *const u64,
            public_len: usize,
            batch: *mut u64,
            batch_len: usize,
        ) -> u64;
        pub fn compare_read_branch(opcode: u32, funct3: u32, rs1: u64, rs2: u64) -> u64;
    }
}

/// One word of a + b: the low one for word 0, the high one for any other.
pub fn add_word(a: u128, b: u128, word: u32) -> u64 {
    unsafe { c::compare_add(low(a), high(a), low(b), high(b), word) }
}

/// One word of a · b. Inlined, so that the benchmark times one call and not two.
#[inline]
pub fn mul_word(a: u128, b: u128, word: u32) -> u64 {
    unsafe { c::compare_mul(low(a), high(a), low(b), high(b), word) }
}

/// One word of a shifted up by k bits.
pub fn shl_word(a: u128, k: u32, word: u32) -> u64 {
    unsafe { c::compare_shl(low(a), high(a), k, word) }
}

/// One word of a · 2^k.
pub fn times_power_word(a: u128, k: u32, word: u32) -> u64 {
    unsafe { c::compare_times_power(low(a), high(a), k, word) }
}

pub fn add(a: u128, b: u128) -> u128 {
    element(add_word(a, b, 0), add_word(a, b, 1))
}

pub fn mul(a: u128, b: u128) -> u128 {
    element(mul_word(a, b, 0), mul_word(a, b, 1))
}

pub fn shl(a: u128, k: u32) -> u128 {
    element(shl_word(a, k, 0), shl_word(a, k, 1))
}

pub fn times_power(a: u128, k: u32) -> u128 {
    element(times_power_word(a, k, 0), times_power_word(a, k, 1))
}

/// Part 0 is cpi, 1 w_cols, 2 m, 3 one_col, any other w128.
pub fn geometry(cpi: usize, part: u32) -> Answer {
    answer(unsafe { c::compare_geometry(cpi, part) })
}

#[inline]
pub fn map_col(cpi: usize, column: usize, cycle: usize) -> Answer {
    answer(unsafe { c::compare_map_col(cpi, column, cycle) })
}

pub fn map_z_col(cpi: usize, column: usize, cycle: usize) -> Answer {
    answer(unsafe { c::compare_map_z_col(cpi, column, cycle) })
}

/// The exponent of a batch size, 9 for a number that is none.
pub fn exponent(cpi: usize) -> u32 {
    unsafe { c::compare_exponent(cpi) }
}

/// Whether the check takes scratch of so many words.
pub fn scratch_fits(words: usize) -> bool {
    unsafe { c::compare_scratch_fits(words) != 0 }
}

/// Part 0 is the column that a batch column came from, any other the cycle.
#[inline]
pub fn way_back(cpi: usize, batch_column: usize, part: u32) -> Answer {
    answer(unsafe { c::compare_way_back(cpi, batch_column, part) })
}

/// Part 0 is the row that a batch row came from, any other the cycle. Relation 0 is bin, any other fld.
pub fn row_way_back(cpi: usize, relation: u32, batch_row: usize, part: u32) -> Answer {
    answer(unsafe { c::compare_row_way_back(cpi, relation, batch_row, part) })
}

/// A listing that is known by name, so that none has to be lent; by the numbers that the C functions take.
#[derive(Clone, Copy, Debug, PartialEq, Eq)]
pub enum Known {
    House = 0,
    Strict = 1,
}

/// Word i of a listing, 0 past its end.
pub fn listing_word(known: Known, i: usize) -> u32 {
    unsafe { c::compare_listing_word(known as u32, i) }
}

/// A listing word as a cycle of a batch has it: index + 2^32 · coefficient + 2^40 · kind.
pub fn batched(cpi: usize, cycle: usize, word: u32) -> Answer {
    answer(unsafe { c::compare_batched(cpi, cycle, word) })
}

/// What a word stands for by itself, must-be-zero bits passed over, in the numbers of `batched`.
pub fn read_word(word: u32) -> u64 {
    word_part(word, 0)
}

/// The relation that bit 29 of a word says: 3 bin, 4 fld.
pub fn relation_of(word: u32) -> u64 {
    word_part(word, 1)
}

/// The coefficient of a word: k for 2^k, 255 for zero.
pub fn coefficient_of(word: u32) -> u64 {
    word_part(word, 2)
}

/// 1 where the must-be-zero bits of a word are zero, else 0.
pub fn is_clean(word: u32) -> u64 {
    word_part(word, 3)
}

fn word_part(word: u32, part: u32) -> u64 {
    unsafe { c::compare_read_word(word, part) }
}

/// Constant i of the layout, in the order of the proved library's own table.
pub fn layout(i: usize) -> Option<u64> {
    answer(unsafe { c::compare_layout(i) }).ok()
}

/// Part 0 is the start of segment i, 1 its length, 2 + k byte k of its name.
pub fn segment(i: usize, part: u32) -> Option<u64> {
    answer(unsafe { c::compare_segment(i, part) }).ok()
}

/// Width i of a word and the fields of the bus, in the order of the proved library's own table.
pub fn width(i: usize) -> Option<u64> {
    answer(unsafe { c::compare_width(i) }).ok()
}

/// Cycles of a batch where nobody chooses.
pub fn default_cpi() -> u64 {
    unsafe { c::compare_default_cpi() }
}

/// The verdict on a batch, two words an element, with the rows tested in each relation, bin and fld.
/// Accepted: fld · 2^40 + bin · 2^20. Failed: 2^62, and 2^61 more for a row of fld, + fld · 2^40 +
/// bin · 2^20 + batch row. Refused: 2^63 + number · 2^32 + place.
pub fn check_row(cpi: usize, listing: &[u32], batch: &[u64], scratch: &mut [u64]) -> u64 {
    checked(Way::Usual, cpi, listing, batch, scratch)
}

/// The verdict against a listing that is known by name and not lent. Answers as `check_row` does.
pub fn check_known(known: Known, cpi: usize, batch: &[u64]) -> u64 {
    known_checked(Way::Usual, known, cpi, batch)
}

/// The same verdict by the plain walk over the listing.
pub fn check_row_plain(cpi: usize, listing: &[u32], batch: &[u64], scratch: &mut [u64]) -> u64 {
    checked(Way::Plain, cpi, listing, batch, scratch)
}

/// The same verdict as `check_known` by the plain walk over that listing.
pub fn check_known_plain(known: Known, cpi: usize, batch: &[u64]) -> u64 {
    known_checked(Way::Plain, known, cpi, batch)
}

/// The two ways to the one verdict, by the numbers that the C functions take.
#[derive(Clone, Copy)]
enum Way {
    Usual = 0,
    Plain = 1,
}

fn checked(way: Way, cpi: usize, listing: &[u32], batch: &[u64], scratch: &mut [u64]) -> u64 {
    unsafe {
        c::compare_check_row(
            way as u32,
            cpi,
            listing.as_ptr(),
            listing.len(),
            batch.as_ptr(),
            batch.len(),
            scratch.as_mut_ptr(),
            scratch.len(),
        )
    }
}

fn known_checked(way: Way, known: Known, cpi: usize, batch: &[u64]) -> u64 {
    let (words, len) = (batch.as_ptr(), batch.len());
    unsafe { c::compare_check_known(known as u32, way as u32, cpi, words, len) }
}

/// Fills a batch and checks it against a known listing. Answers as `check_known` does on what is filled,
/// or as `fill` where that refuses.
pub fn fill_and_check(known: Known, cpi: usize, batch: &mut [u64]) -> u64 {
    unsafe { c::compare_fill_and_check(known as u32, cpi, batch.as_mut_ptr(), batch.len()) }
}

/// Whether the words are those of a known listing.
pub fn is_known(known: Known, listing: &[u32]) -> bool {
    unsafe { c::compare_is_known(known as u32, listing.as_ptr(), listing.len()) == 1 }
}

/// Packs the columns that are looked at, 32 words a cycle: column c of cycle d is bit c % 64 of word
/// 32 · d + c / 64, where all are bits. Returns 0 where they are, 1 where they are not. Refused: 2^63 +
/// number · 2^32.
pub fn pack_named(cpi: usize, batch: &[u64], out: &mut [u64]) -> u64 {
    unsafe {
        c::compare_pack_named(
            cpi,
            batch.as_ptr(),
            batch.len(),
            out.as_mut_ptr(),
            out.len(),
        )
    }
}

/// Packs the columns below one_col in batch order, 64 to a word: batch column 64 · k + j is bit j of
/// word k. Returns 0. Refused, as in the four that follow: 2^63 + number · 2^32.
pub fn pack(cpi: usize, batch: &[u64], out: &mut [u64]) -> u64 {
    unsafe {
        c::compare_pack(
            cpi,
            batch.as_ptr(),
            batch.len(),
            out.as_mut_ptr(),
            out.len(),
        )
    }
}

/// Packs them straight into cycle order: column c of cycle d is bit 2,048 · d + c. Returns 0.
pub fn pack_cycles(cpi: usize, batch: &[u64], out: &mut [u64]) -> u64 {
    unsafe {
        c::compare_pack_cycles(
            cpi,
            batch.as_ptr(),
            batch.len(),
            out.as_mut_ptr(),
            out.len(),
        )
    }
}

/// Writes the bits of packed words, in batch order, into the columns below one_col of a batch, and returns
/// 0. Public columns stay.
pub fn unpack(cpi: usize, words: &[u64], batch: &mut [u64]) -> u64 {
    unsafe {
        c::compare_unpack(
            cpi,
            words.as_ptr(),
            words.len(),
            batch.as_mut_ptr(),
            batch.len(),
        )
    }
}

/// Rearranges packed words from batch order into cycle order and returns 0.
pub fn to_cycles(cpi: usize, words: &[u64], out: &mut [u64]) -> u64 {
    unsafe {
        c::compare_to_cycles(
            cpi,
            words.as_ptr(),
            words.len(),
            out.as_mut_ptr(),
            out.len(),
        )
    }
}

/// Rearranges packed words from cycle order into batch order and returns 0.
pub fn to_batch(cpi: usize, words: &[u64], out: &mut [u64]) -> u64 {
    unsafe {
        c::compare_to_batch(
            cpi,
            words.as_ptr(),
            words.len(),
            out.as_mut_ptr(),
            out.len(),
        )
    }
}

/// Merges two batches into one of twice the size, the first's cycles before the second's, and returns 0.
/// Refused: 2^63 + number · 2^32 + place.
pub fn merge(
    first_cpi: usize,
    first: &[u64],
    second_cpi: usize,
    second: &[u64],
    batch: &mut [u64],
) -> u64 {
    unsafe {
        c::compare_merge(
            first_cpi,
            first.as_ptr(),
            first.len(),
            second_cpi,
            second.as_ptr(),
            second.len(),
            batch.as_mut_ptr(),
            batch.len(),
        )
    }
}

/// The bitwise or of all words: one plain read of them.
pub fn read(words: &[u64]) -> u64 {
    unsafe { c::compare_read(words.as_ptr(), words.len()) }
}

/// The bitwise or of all bytes.
pub fn read_bytes(bytes: &[u8]) -> u64 {
    unsafe { c::compare_read_bytes(bytes.as_ptr(), bytes.len()) }
}

/// Makes all words zero, as every verdict does with scratch.
pub fn clear(scratch: &mut [u64]) {
    unsafe { c::compare_clear(scratch.as_mut_ptr(), scratch.len()) }
}

/// A row of a listing: relation 0 is bin, any other fld.
#[derive(Clone, Copy, Debug)]
pub struct Row {
    pub relation: u32,
    pub row: usize,
}

/// Writes the three sums of a row in a cycle, two words each, and returns 0. Refused: 2^63 +
/// number · 2^32 + place, or 2^63 alone for an `out` of fewer than six words.
pub fn apply(
    cpi: usize,
    listing: &[u32],
    batch: &[u64],
    row: Row,
    cycle: usize,
    out: &mut [u64],
) -> u64 {
    unsafe {
        c::compare_apply(
            cpi,
            listing.as_ptr(),
            listing.len(),
            batch.as_ptr(),
            batch.len(),
            row.relation,
            row.row,
            cycle,
            out.as_mut_ptr(),
            out.len(),
        )
    }
}

/// Lays a row in a cycle out on pages and returns 0. Refused: 2^63 + number · 2^32 + place.
pub fn page(
    cpi: usize,
    listing: &[u32],
    batch: &[u64],
    row: Row,
    cycle: usize,
    page: &mut [u8],
) -> u64 {
    unsafe {
        c::compare_page(
            cpi,
            listing.as_ptr(),
            listing.len(),
            batch.as_ptr(),
            batch.len(),
            row.relation,
            row.row,
            cycle,
            page.as_mut_ptr(),
            page.len(),
        )
    }
}

/// How many bytes the pages of a row take.
pub fn page_bytes(listing: &[u32], row: Row) -> Answer {
    let (words, len) = (listing.as_ptr(), listing.len());
    answer(unsafe { c::compare_page_bytes(words, len, row.relation, row.row) })
}

/// 0 where every column below one_col is 0 or 1. Else 2^62 + cycle · 2^48 + column · 2^32 + batch
/// column. Refused: 2^63 + number · 2^32.
pub fn bit_test(cpi: usize, batch: &[u64]) -> u64 {
    unsafe { c::compare_bit_test(cpi, batch.as_ptr(), batch.len()) }
}

/// Opens a listing, asks its reader for a row and then for the next, and writes of each its start,
/// its end, word i of its part and the reader's position afterwards: eight words. Past the end of a part
/// the word is 2^63. A row that is refused has 2^63 + number · 2^32 for its start, and end 0. Returns 0
/// for a listing that opens, else 2^63 + number · 2^32 + place, or 2^63 alone for an `out` of fewer than
/// eight words.
pub fn reader(listing: &[u32], row: Row, next: Row, i: usize, out: &mut [u64]) -> u64 {
    unsafe {
        c::compare_reader(
            listing.as_ptr(),
            listing.len(),
            row.relation,
            row.row,
            next.relation,
            next.row,
            i,
            out.as_mut_ptr(),
            out.len(),
        )
    }
}

/// Where a row starts in any words, for part 0; for any other part where it ends, 0 for one that is
/// refused.
pub fn find_row(listing: &[u32], row: Row, part: u32) -> Answer {
    sought(0, listing, row, part)
}

/// The same in words that are opened first.
pub fn read_row(listing: &[u32], row: Row, part: u32) -> Answer {
    sought(1, listing, row, part)
}

fn sought(opened: u32, listing: &[u32], row: Row, part: u32) -> Answer {
    let (words, len) = (listing.as_ptr(), listing.len());
    answer(unsafe { c::compare_find_row(opened, words, len, row.relation, row.row, part) })
}

/// Word i of a row's part of any words, 2^63 past its end.
pub fn row_part(listing: &[u32], row: Row, i: usize) -> u64 {
    let (words, len) = (listing.as_ptr(), listing.len());
    unsafe { c::compare_row_part(words, len, row.relation, row.row, i) }
}

/// A place as it is handed in: `refused` 0 is the words from start to end, any other a refusal.
#[derive(Clone, Copy, Debug)]
pub struct Place {
    pub refused: u32,
    pub start: usize,
    pub end: usize,
}

/// Word i of the part at a place, 2^63 past its end.
pub fn part_at(listing: &[u32], place: Place, i: usize) -> u64 {
    let (words, len) = (listing.as_ptr(), listing.len());
    unsafe { c::compare_part_at(words, len, place.refused, place.start, place.end, i) }
}

/// Writes the derived columns of a batch and returns 0. Refused: 2^63 + number · 2^32 + place.
pub fn fill(cpi: usize, batch: &mut [u64]) -> u64 {
    unsafe { c::compare_fill(cpi, batch.as_mut_ptr(), batch.len()) }
}

/// The first of the ten step conditions that a cycle does not meet, 1 to 10; 0 where it meets them
/// all. Refused: 2^63 + number · 2^32 + place.
pub fn first_unmet(cpi: usize, batch: &[u64], cycle: usize) -> u64 {
    unsafe { c::compare_first_unmet(cpi, batch.as_ptr(), batch.len(), cycle) }
}

/// Writes the row of a cycle and returns 0. Refused: 2^63 + number · 2^32, or 2^63 alone for a record
/// of fewer than 30 words or a ROM row of fewer than 8. A record is the words of the original's
/// `CycleRecord` in the order of its fields, a ROM row kind, stage, rd, rs1, rs2, funct3, imm and raw.
pub fn witness_row(record: &[u64], rom_row: &[u64], public: &[u64], row: &mut [u64]) -> u64 {
    unsafe {
        c::compare_witness_row(
            record.as_ptr(),
            record.len(),
            rom_row.as_ptr(),
            rom_row.len(),
            public.as_ptr(),
            public.len(),
            row.as_mut_ptr(),
            row.len(),
        )
    }
}

/// Puts cycles and public values together in a batch and returns 0. Refused: 2^63 + number · 2^32.
pub fn assemble(cpi: usize, cycles: &[u64], public: &[u64], batch: &mut [u64]) -> u64 {
    unsafe {
        c::compare_assemble(
            cpi,
            cycles.as_ptr(),
            cycles.len(),
            public.as_ptr(),
            public.len(),
            batch.as_mut_ptr(),
            batch.len(),
        )
    }
}

/// What `read_branch` answers.
pub mod reading {
    pub const NO_BRANCH: u64 = 0;
    pub const TAKEN: u64 = 1;
    pub const NOT_TAKEN: u64 = 2;
    pub const RESERVED: u64 = 3;
}

/// One of the numbers of `reading`.
pub fn read_branch(opcode: u32, funct3: u32, rs1: u64, rs2: u64) -> u64 {
    unsafe { c::compare_read_branch(opcode, funct3, rs1, rs2) }
}

#[inline]
fn answer(raw: u64) -> Answer {
    if raw >> 63 == 0 {
        return Ok(raw);
    }
    Err(Refusal {
        number: (raw & !(1 << 63)) >> 32,
        place: raw as u32 as usize,
    })
}

fn element(lo: u64, hi: u64) -> u128 {
    u128::from(lo) | u128::from(hi) << 64
}

fn low(a: u128) -> u64 {
    a as u64
}

fn high(a: u128) -> u64 {
    (a >> 64) as u64
}
