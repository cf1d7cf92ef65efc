//! The lists that calls read and write.

use std::ptr;

/// A number of a list. Any bytes are one.
pub trait Plain: Copy {
    fn bits(self) -> u64;
}

macro_rules! plain {
    ($($whole:ty),*) => {
        $(impl Plain for $whole {
            fn bits(self) -> u64 {
                self as u64
            }
        })*
    };
}

plain!(u8, i8, u32, i32, u64);

impl Plain for f64 {
    fn bits(self) -> u64 {
        self.to_bits()
    }
}

/// A list that a call reads.
pub trait Given {
    fn is_empty(&self) -> bool;

    /// Reads it once.
    fn pass(&self) -> u64;
}

impl<T: Plain> Given for Vec<T> {
    fn is_empty(&self) -> bool {
        self.is_empty()
    }

    fn pass(&self) -> u64 {
        self.iter().fold(0, |sum, number| sum.wrapping_add(number.bits()))
    }
}

/// Lists that a call fills: none, one, or two kinds of lists.
pub trait Lent: Clone {
    fn is_empty(&self) -> bool;

    /// Writes one byte all over, by memset.
    fn wipe(&mut self);

    /// Whether every bit is the same.
    fn same(&self, other: &Self) -> bool;
}

impl Lent for () {
    fn is_empty(&self) -> bool {
        true
    }

    fn wipe(&mut self) {}

    fn same(&self, _: &()) -> bool {
        true
    }
}

impl<T: Plain> Lent for Vec<T> {
    fn is_empty(&self) -> bool {
        self.is_empty()
    }

    fn wipe(&mut self) {
        if !self.is_empty() {
            // SAFETY: the bytes are those of the list's own numbers, and any bytes are a number
            unsafe { ptr::write_bytes(self.as_mut_ptr(), 0xA5, self.len()) }
        }
    }

    fn same(&self, other: &Self) -> bool {
        self.len() == other.len() && self.iter().zip(other).all(|(one, other)| one.bits() == other.bits())
    }
}

impl<A: Lent, B: Lent> Lent for (A, B) {
    fn is_empty(&self) -> bool {
        self.0.is_empty() && self.1.is_empty()
    }

    fn wipe(&mut self) {
        self.0.wipe();
        self.1.wipe();
    }

    fn same(&self, other: &Self) -> bool {
        self.0.same(&other.0) && self.1.same(&other.1)
    }
}
