//! Request 04 of document 02, the six bit pairs, from the paper alone like the
//! rest: all that expansions and images take from a layout, once it is one.

use crate::answer::Layout;

impl Layout {
    /// A position of 0, 1 or 2, and 0 for neighbours or 1 for spaced.
    pub fn is_one_of_six(self) -> bool {
        matches!((self.position, self.spacing), (0..=2, 0..=1))
    }

    pub fn is_spaced(self) -> bool {
        self.spacing == 1
    }

    /// One number for neighbours, another for spaced bits.
    fn either<T>(self, neighbours: T, spaced: T) -> T {
        if self.is_spaced() {
            spaced
        } else {
            neighbours
        }
    }

    /// 2^p.
    pub fn power(self) -> u8 {
        1 << self.position
    }

    /// The code of a bit: 1 is 2^p, 0 is 2 × 2^p or 4 × 2^p.
    pub fn code(self, bit: u8) -> u8 {
        match bit {
            1 => self.power(),
            _ => self.either(2, 4) * self.power(),
        }
    }

    /// The bit of a code, none if it is neither.
    pub fn decoded(self, code: u8) -> Option<u8> {
        (0..2).find(|&bit| self.code(bit) == code)
    }

    /// Both bits of a pair, 3 × 2^p or 5 × 2^p.
    pub fn mask(self) -> u8 {
        self.either(3, 5) * self.power()
    }

    /// How many shifts by one the macro has.
    pub fn shifts(self) -> usize {
        self.either(2, 1)
    }

    /// Where a table has the code of a op b, counted from its start. Codes are multiples of 2^p, so this
    /// is one too: no more is needed for entries 2^p apart.
    pub fn index(self, a: u8, b: u8) -> u8 {
        self.either(4, 2) * self.code(a) + self.code(b)
    }

    /// Where table 0, 1 or 2 starts, counted from cell 256: 0, 16 × 2^p, 32 × 2^p.
    pub fn table(self, number: u8) -> u8 {
        16 * number * self.power()
    }
}
