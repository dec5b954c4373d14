//! Cycles with chosen flags that meet the ten conditions, or all but one, and batches of such cycles.

use super::flags::{Flags, CHOICES};
use crate::filler::conditions::{Cycle, LD_BYTE, LD_HALF, LD_WORD, LOAD, STORE};
use crate::filler::cycles::{Wanted, SETTING};
use crate::filler::filled::{filled, output};
use crate::numbers::Numbers;
use crate::verdict::batches::Batch;

/// A cycle with these five flags, those of arithmetic, shift and WE drawn.
pub fn with_flags(numbers: &mut Numbers, flags: Flags, output: u128) -> Cycle {
    wanted(numbers, flags, 0, output).make(numbers)
}

fn wanted(numbers: &mut Numbers, flags: Flags, broken: usize, output: u128) -> Wanted {
    Wanted {
        setting: setting(numbers, flags),
        off: numbers.below(8) as u32,
        broken,
        output,
    }
}

fn setting(numbers: &mut Numbers, flags: Flags) -> u32 {
    let mut is_set = |flag| match flag {
        LOAD => flags.load,
        STORE => flags.store,
        LD_BYTE => flags.byte,
        LD_HALF => flags.half,
        LD_WORD => flags.word,
        _ => numbers.below(2) == 1,
    };
    let bit = |(i, flag)| u32::from(is_set(flag)) << i;
    SETTING.into_iter().enumerate().map(bit).sum()
}

/// Any flags.
pub fn any_flags(numbers: &mut Numbers) -> Flags {
    Flags::of_choice(numbers.below(CHOICES as u64) as usize)
}

/// Any flags as document 02 wants them.
pub fn right_flags(numbers: &mut Numbers) -> Flags {
    loop {
        let flags = any_flags(numbers);
        if flags.are_right() {
            return flags;
        }
    }
}

/// A batch of such cycles, filled. That it is accepted is for the caller to see.
pub fn accepted(numbers: &mut Numbers, cpi: usize) -> Batch {
    let output = output(numbers);
    accepted_with(numbers, cpi, output)
}

/// The same, with this output.
pub fn accepted_with(numbers: &mut Numbers, cpi: usize, output: u128) -> Batch {
    let cycle = |_| {
        let flags = right_flags(numbers);
        with_flags(numbers, flags, output)
    };
    let cycles: Vec<Cycle> = (0..cpi).map(cycle).collect();
    filled(numbers, &cycles, output)
}

/// A batch of such cycles, but for one in which condition k is not met. That it fails is for the caller to
/// see.
pub fn broken(numbers: &mut Numbers, cpi: usize, k: usize) -> Batch {
    let output = output(numbers);
    broken_with(numbers, cpi, k, output)
}

/// The same, with this output.
pub fn broken_with(numbers: &mut Numbers, cpi: usize, k: usize, output: u128) -> Batch {
    let breaker = numbers.below(cpi as u64) as usize;
    let cycle = |d| {
        if d == breaker {
            return breaking(numbers, k, output);
        }
        let flags = right_flags(numbers);
        with_flags(numbers, flags, output)
    };
    let cycles: Vec<Cycle> = (0..cpi).map(cycle).collect();
    filled(numbers, &cycles, output)
}

/// A cycle with right flags, to which condition k applies and which does not meet it.
fn breaking(numbers: &mut Numbers, k: usize, output: u128) -> Cycle {
    loop {
        let flags = right_flags(numbers);
        let wanted = wanted(numbers, flags, k, output);
        if wanted.can_be() {
            return wanted.make(numbers);
        }
    }
}
