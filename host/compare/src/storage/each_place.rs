//! Where each column of each cycle is put, by the original's `map_col`.

use super::call::Entry;
use super::reading::{bit, for_cells, in_cycles};
use crate::columns::{CYCLES, SIZES};
use crate::numbers::Numbers;
use crate::original;
use crate::parallel::in_parts;
use crate::report::{test, Tally, Test};
use crate::verdict::batches::WITNESS_COLUMNS;

pub fn tests() -> Vec<Test> {
    let cells = CYCLES * WITNESS_COLUMNS as u64;
    let of_entry = |(entry, name): (Entry, &str)| {
        test(
            format!("packed storage, each column of each cycle by map_col, {name}"),
            2 * (SIZES.len() as u64 + cells),
            move |tally| each_size(tally, entry),
        )
    };
    let names = [
        (Entry::Pack, "packed in batch order"),
        (Entry::PackCycles, "packed in cycle order"),
        (Entry::Unpack, "unpacked"),
        (Entry::ToCycles, "into cycle order"),
        (Entry::ToBatch, "into batch order"),
    ];
    names.into_iter().map(of_entry).collect()
}

/// Twice, the second time with the other bit in every place.
fn each_size(tally: &mut Tally, entry: Entry) {
    in_parts(tally, SIZES.len(), |tally, part| {
        let cpi = SIZES[part];
        let mut numbers = Numbers::for_part(107, (cpi << 32 | entry as usize) as u64);
        let mut read = entry.input(&mut numbers, cpi);
        each_cell(tally, &mut numbers, entry, cpi, &read);
        if entry.packs() {
            let lower = read[..2 * WITNESS_COLUMNS * cpi].iter_mut();
            lower.step_by(2).for_each(|low| *low ^= 1);
        } else {
            read.iter_mut().for_each(|word| *word = !*word);
        }
        each_cell(tally, &mut numbers, entry, cpi, &read);
    });
}

fn each_cell(tally: &mut Tally, numbers: &mut Numbers, entry: Entry, cpi: usize, read: &[u64]) {
    let [_, written] = entry.slices();
    let mut written = numbers.words(written.words_of_a_cycle * cpi);
    let answer = entry.call(cpi, read, &mut written);
    tally.same(|| format!("{entry:?} of {cpi}"), answer, 0);
    let geometry = original::geometry(cpi);
    for_cells(cpi, |column, cycle| {
        let in_batch = geometry.map_col(column, cycle);
        let in_cycles = in_cycles(column, cycle);
        let element = |words: &[u64]| [words[2 * in_batch], words[2 * in_batch + 1]];
        let packed = |words: &[u64], x| [u64::from(bit(words, x)), 0];
        let [seen, right] = match entry {
            Entry::Pack => [packed(&written, in_batch), element(read)],
            Entry::PackCycles => [packed(&written, in_cycles), element(read)],
            Entry::Unpack => [element(&written), packed(read, in_batch)],
            Entry::ToCycles => [packed(&written, in_cycles), packed(read, in_batch)],
            Entry::ToBatch => [packed(&written, in_batch), packed(read, in_cycles)],
        };
        let place = || format!("{entry:?}, column {column} of cycle {cycle} of {cpi}");
        tally.same(place, seen, right);
    });
}
