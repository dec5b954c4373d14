//! A test's parts, spread over the processors.

use std::sync::atomic::{AtomicUsize, Ordering};
use std::thread;

use crate::numbers::Numbers;
use crate::report::Tally;

/// Runs the parts of a test. A part draws its numbers by its own index, so that what is compared
/// does not depend on how many threads there are.
pub fn in_parts(tally: &mut Tally, parts: usize, each: impl Fn(&mut Tally, usize) + Sync) {
    let next = AtomicUsize::new(0);
    let work = || {
        let mut tally = Tally::default();
        loop {
            let part = next.fetch_add(1, Ordering::Relaxed);
            if part >= parts {
                return tally;
            }
            each(&mut tally, part);
        }
    };
    thread::scope(|scope| {
        let threads: Vec<_> = (0..processors()).map(|_| scope.spawn(work)).collect();
        for thread in threads {
            tally.join(thread.join().expect("a part of the test panicked"));
        }
    });
}

/// Runs so many parts of each size, the largest first, each with numbers of its own.
pub fn at_sizes<const N: usize>(
    tally: &mut Tally,
    test: u64,
    sizes: [usize; N],
    parts: [usize; N],
    each: impl Fn(&mut Tally, Numbers, usize, usize) + Sync,
) {
    let of_size = |(cpi, parts): (usize, usize)| (0..parts).map(move |part| (cpi, part));
    let sizes = sizes.into_iter().zip(parts).rev();
    let all: Vec<_> = sizes.flat_map(of_size).collect();
    in_parts(tally, all.len(), |tally, i| {
        let (cpi, part) = all[i];
        let numbers = Numbers::for_part(test, (cpi << 32 | part) as u64);
        each(tally, numbers, cpi, part);
    });
}

fn processors() -> usize {
    thread::available_parallelism().map_or(1, usize::from)
}
