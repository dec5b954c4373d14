//! Each step undone by its inverse, in both directions, and the two ways into cycle order.

use super::at_every_size;
use super::call::{batch, Entry};
use super::reading::WORDS_OF_A_CYCLE;
use crate::numbers::Numbers;
use crate::report::{test, Tally, Test};
use crate::verdict::batches::{COLUMNS, WITNESS_COLUMNS};
use crate::verdict::lent::first_apart;

/// Batches of each size.
const TRIPS: [usize; 9] = [512, 256, 128, 64, 32, 16, 8, 8, 8];

/// Comparisons of what comes back, and of the answers on the way.
const OF_STORAGE: u64 = 3 + 2;
const OF_ORDERS: u64 = 2 + 2;
const OF_TWO_WAYS: u64 = 3 + 1;

pub fn tests() -> Vec<Test> {
    let trips: usize = TRIPS.iter().sum();
    let of_trips = |name: &str, each: u64, body: fn(&mut Tally)| {
        let name = format!("packed storage, {name} at every size, {trips} batches");
        test(name, trips as u64 * each, body)
    };
    vec![
        of_trips(
            "unpack after pack and pack after unpack",
            OF_STORAGE,
            storage,
        ),
        of_trips("each order after the other", OF_ORDERS, orders),
        of_trips("two ways into cycle order", OF_TWO_WAYS, two_ways),
    ]
}

/// Calls one after the other, each into a slice that has anything in it.
struct Trip {
    cpi: usize,
    numbers: Numbers,
    /// Every call's, of which all must be 0.
    answers: Vec<u64>,
}

impl Trip {
    fn new(cpi: usize, numbers: Numbers) -> Trip {
        Trip {
            cpi,
            numbers,
            answers: Vec::new(),
        }
    }

    fn packed_words(&mut self) -> Vec<u64> {
        self.numbers.words(WORDS_OF_A_CYCLE * self.cpi)
    }

    fn batch_words(&mut self) -> Vec<u64> {
        self.numbers.words(2 * COLUMNS * self.cpi)
    }

    fn call(&mut self, entry: Entry, read: &[u64], written: &mut [u64]) {
        self.answers.push(entry.call(self.cpi, read, written));
    }

    /// Packed words from a batch, or in the other order.
    fn packed(&mut self, entry: Entry, read: &[u64]) -> Vec<u64> {
        let mut written = self.packed_words();
        self.call(entry, read, &mut written);
        written
    }
}

fn storage(tally: &mut Tally) {
    at_every_size(tally, 109, TRIPS, |tally, numbers, cpi, part| {
        let place = |what| format!("trip {part} of {cpi}, {what}");
        let mut trip = Trip::new(cpi, numbers);

        let public = 2 * WITNESS_COLUMNS * cpi;
        let from = batch(&mut trip.numbers, cpi);
        let other = trip.batch_words();
        let mut into = other.clone();
        let words = trip.packed(Entry::Pack, &from);
        trip.call(Entry::Unpack, &words, &mut into);
        let apart = first_apart(&into[..public], &from[..public]);
        tally.same(|| place("lower columns"), apart, None);
        let apart = first_apart(&into[public..], &other[public..]);
        tally.same(|| place("public columns"), apart, None);

        let words = trip.packed_words();
        let mut into = trip.batch_words();
        trip.call(Entry::Unpack, &words, &mut into);
        let back = trip.packed(Entry::Pack, &into);
        tally.same(|| place("packed words"), first_apart(&back, &words), None);

        let [there, again] = [&trip.answers[..2], &trip.answers[2..]];
        tally.same(|| place("pack, then unpack"), there, &[0, 0]);
        tally.same(|| place("unpack, then pack"), again, &[0, 0]);
    });
}

fn orders(tally: &mut Tally) {
    at_every_size(tally, 110, TRIPS, |tally, numbers, cpi, part| {
        let ways = [
            (Entry::ToCycles, Entry::ToBatch),
            (Entry::ToBatch, Entry::ToCycles),
        ];
        let mut trip = Trip::new(cpi, numbers);
        for (there, back) in ways {
            let place = || format!("trip {part} of {cpi}, {there:?} first");
            let words = trip.packed_words();
            let rearranged = trip.packed(there, &words);
            let again = trip.packed(back, &rearranged);
            tally.same(place, first_apart(&again, &words), None);
            tally.same(place, &trip.answers[..], &[0, 0]);
            trip.answers.clear();
        }
    });
}

/// Packed and then rearranged, or straight. And the words that the check packs for itself, all of them
/// others before.
fn two_ways(tally: &mut Tally) {
    at_every_size(tally, 111, TRIPS, |tally, numbers, cpi, part| {
        let place = |what| format!("batch {part} of {cpi}, {what}");
        let mut trip = Trip::new(cpi, numbers);
        let from = batch(&mut trip.numbers, cpi);
        let words = trip.packed(Entry::Pack, &from);
        let rearranged = trip.packed(Entry::ToCycles, &words);
        let straight = trip.packed(Entry::PackCycles, &from);
        let back = trip.packed(Entry::ToBatch, &straight);
        let apart = first_apart(&straight, &rearranged);
        tally.same(|| place("cycle order"), apart, None);
        tally.same(|| place("batch order"), first_apart(&back, &words), None);

        let mut named: Vec<u64> = straight.iter().map(|word| !word).collect();
        let answer = product::pack_named(cpi, &from, &mut named);
        trip.answers.push(answer);
        for (i, word) in named.iter_mut().enumerate() {
            if !looked_at(i % WORDS_OF_A_CYCLE) {
                *word = !*word;
            }
        }
        let apart = first_apart(&named, &straight);
        tally.same(|| place("the check's words"), apart, None);
        tally.same(|| place("answers"), &trip.answers[..], &[0; 5]);
    });
}

/// Whether the check looks at the columns of word k of a cycle.
fn looked_at(k: usize) -> bool {
    product::LOOKED_AT
        .iter()
        .any(|read| read.contains(&(64 * k)))
}
