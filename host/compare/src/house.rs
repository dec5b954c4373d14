//! The house format of a listing, read from document 01 and from nothing else.

/// Which matrix a term stands in, or that the word opens a row.
#[derive(Clone, Copy, Debug, PartialEq, Eq)]
pub enum Word {
    Mark { relation: Relation, row: usize },
    Term { side: Side, term: Term },
}

#[derive(Clone, Copy, Debug, PartialEq, Eq, PartialOrd, Ord)]
pub enum Relation {
    Bin,
    Fld,
}

#[derive(Clone, Copy, Debug, PartialEq, Eq, PartialOrd, Ord)]
pub enum Side {
    A,
    B,
    C,
}

#[derive(Clone, Copy, Debug, PartialEq, Eq)]
pub struct Term {
    pub column: usize,
    pub coefficient: Coefficient,
}

#[derive(Clone, Copy, Debug, PartialEq, Eq)]
pub enum Coefficient {
    Zero,
    Power(u32),
}

impl Coefficient {
    pub fn value(self) -> u128 {
        match self {
            Coefficient::Zero => 0,
            Coefficient::Power(k) => 1 << k,
        }
    }
}

impl Relation {
    /// Rows of one cycle, padding included.
    pub fn padded_rows(self) -> usize {
        match self {
            Relation::Bin => 512,
            Relation::Fld => 32,
        }
    }
}

pub const MUST_BE_ZERO: u64 = 7;
pub const FLD_ROW: u64 = 9;

/// Reads one word, or says which question it fails by itself.
pub fn read(word: u32) -> Result<Word, u64> {
    match word >> 30 {
        0 => read_term(Side::A, word),
        1 => read_term(Side::B, word),
        2 => read_term(Side::C, word),
        _ => read_mark(word),
    }
}

fn read_mark(word: u32) -> Result<Word, u64> {
    if bits(word, 28, 9) != 0 {
        return Err(MUST_BE_ZERO);
    }
    let relation = if bits(word, 29, 29) == 0 {
        Relation::Bin
    } else {
        Relation::Fld
    };
    let row = bits(word, 8, 0) as usize;
    if row >= relation.padded_rows() {
        return Err(FLD_ROW);
    }
    Ok(Word::Mark { relation, row })
}

fn read_term(side: Side, word: u32) -> Result<Word, u64> {
    let exponent = bits(word, 17, 12);
    let is_zero = bits(word, 29, 29) == 1;
    if bits(word, 28, 18) != 0 || is_zero && exponent != 0 {
        return Err(MUST_BE_ZERO);
    }
    let coefficient = if is_zero {
        Coefficient::Zero
    } else {
        Coefficient::Power(exponent)
    };
    let column = bits(word, 11, 0) as usize;
    let term = Term {
        column,
        coefficient,
    };
    Ok(Word::Term { side, term })
}

/// Bits `high` down to `low` of a word.
pub fn bits(word: u32, high: u32, low: u32) -> u32 {
    (word >> low) & (u32::MAX >> (31 - (high - low)))
}

/// An entry of a matrix: row, column, value.
pub type Entry = (usize, usize, u128);

/// The entries of A, B and C of one relation, in order.
#[derive(Default)]
pub struct Matrices {
    pub a: Vec<Entry>,
    pub b: Vec<Entry>,
    pub c: Vec<Entry>,
}

impl Matrices {
    pub fn side(&mut self, side: Side) -> &mut Vec<Entry> {
        match side {
            Side::A => &mut self.a,
            Side::B => &mut self.b,
            Side::C => &mut self.c,
        }
    }

    pub fn terms(&self) -> usize {
        self.a.len() + self.b.len() + self.c.len()
    }

    pub fn zero_terms(&self) -> usize {
        let zeros = |entries: &[Entry]| entries.iter().filter(|entry| entry.2 == 0).count();
        zeros(&self.a) + zeros(&self.b) + zeros(&self.c)
    }
}

/// Both relations, as entries.
#[derive(Default)]
pub struct Circuit {
    pub bin: Matrices,
    pub fld: Matrices,
}

impl Circuit {
    pub fn relation(&mut self, relation: Relation) -> &mut Matrices {
        match relation {
            Relation::Bin => &mut self.bin,
            Relation::Fld => &mut self.fld,
        }
    }
}
