//! Whether words are those of a listing that is known by name.

use super::rows;
use crate::listing;
use crate::parallel::in_parts;
use crate::report::{test, Tally, Test};
use crate::verdict::known::{self, KNOWN};
use crate::verdict::one_word::{changed, WAYS};

/// Words by which a listing is too short or too long.
const LENGTHS: [usize; 4] = [1, 2, 30, 3_000];

pub fn tests() -> Vec<Test> {
    let words = (listing::WORDS + rows::WORDS) as u64;
    vec![
        test(
            "is_known, the words of both listings, too few of them and too many",
            2 * 2 * (1 + 2 * LENGTHS.len()) as u64 + 2,
            whole,
        ),
        test(
            "is_known, each word of both listings changed in each bit, left out, there twice",
            2 * WAYS as u64 * words,
            each_word,
        ),
    ]
}

fn whole(tally: &mut Tally) {
    for known in KNOWN {
        let place = || format!("no words, is it {known:?}");
        tally.same(place, product::is_known(known, &[]), false);
        for own in KNOWN {
            let words = known::listing(own).words();
            let place = || format!("{own:?} words, is it {known:?}");
            tally.same(place, product::is_known(known, &words), known == own);
            for length in LENGTHS {
                let short = &words[..words.len() - length];
                tally.same(place, product::is_known(known, short), false);
                let long = [&words[..], &vec![0; length]].concat();
                tally.same(place, product::is_known(known, &long), false);
            }
        }
    }
}

fn each_word(tally: &mut Tally) {
    for own in KNOWN {
        let words = known::listing(own).words();
        in_parts(tally, words.len(), |tally, i| {
            for way in 0..WAYS {
                let words = changed(&words, i, way);
                for known in KNOWN {
                    let place = || format!("{own:?} words, word {i} in way {way}, is it {known:?}");
                    tally.same(place, product::is_known(known, &words), false);
                }
            }
        });
    }
}
