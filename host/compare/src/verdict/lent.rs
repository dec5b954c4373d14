//! Slices as they are lent over the boundary, with guard words before and behind them.

use std::hint::black_box;

const GUARDS: usize = 8;

/// A word that nothing should write.
pub trait Guard: Copy + PartialEq {
    const GUARD: Self;
}

impl Guard for u8 {
    const GUARD: u8 = 0xa5;
}

impl Guard for u32 {
    const GUARD: u32 = 0xa5c3_96f0;
}

impl Guard for u64 {
    const GUARD: u64 = 0xa5c3_96f0_5a3c_690f;
}

/// The lent words between guard words, and what all of them must be after the call.
pub struct Lent<T> {
    memory: Vec<T>,
    right: Vec<T>,
}

impl<T: Guard> Lent<T> {
    pub fn of(words: &[T]) -> Lent<T> {
        let guards = [T::GUARD; GUARDS];
        let memory = [&guards, words, &guards].concat();
        let right = memory.clone();
        Lent { memory, right }
    }

    pub fn len(&self) -> usize {
        self.memory.len() - 2 * GUARDS
    }

    pub fn words(&self) -> &[T] {
        &self.memory[GUARDS..GUARDS + self.len()]
    }

    pub fn words_mut(&mut self) -> &mut [T] {
        let end = GUARDS + self.len();
        &mut self.memory[GUARDS..end]
    }

    /// Changes a word before a call.
    pub fn put(&mut self, i: usize, word: T) {
        assert!(i < self.len());
        self.memory[GUARDS + i] = word;
        self.right[GUARDS + i] = word;
    }

    /// Says what a word must be after the call, whatever it was before.
    pub fn must_become(&mut self, i: usize, word: T) {
        assert!(i < self.len());
        self.right[GUARDS + i] = word;
    }

    /// Fills the words before a call, and says what all of them must be after it.
    pub fn must_become_all(&mut self, before: T, after: &[T]) {
        assert_eq!(after.len(), self.len());
        self.words_mut().fill(before);
        let end = GUARDS + self.len();
        self.right[GUARDS..end].copy_from_slice(after);
    }

    /// Whether the words and their guards are what they must be. What is not is put right, so that
    /// one fault is not found again in the next call.
    pub fn is_right(&mut self) -> bool {
        self.first_wrong().is_none()
    }

    /// The first word that is not what it must be, a guard before the words counted below 0. All
    /// are put right.
    pub fn first_wrong(&mut self) -> Option<isize> {
        // Makes the compiler read again what it lent for reading only.
        black_box(&mut self.memory);
        if self.memory == self.right {
            return None;
        }
        let pairs = self.memory.iter().zip(&self.right);
        let first = pairs.take_while(|(word, right)| word == right).count();
        self.memory.copy_from_slice(&self.right);
        Some(first as isize - GUARDS as isize)
    }
}

/// The first word in which two slices differ, or the shorter one's end.
pub fn first_apart(words: &[u64], right: &[u64]) -> Option<usize> {
    let same = words.iter().zip(right).take_while(|(a, b)| a == b).count();
    (words != right).then_some(same)
}
