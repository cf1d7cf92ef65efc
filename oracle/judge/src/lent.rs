//! Lists that are lent to the port: filled with a pattern beforehand, with a margin on both sides, and held against it afterwards.

use crate::random::Random;

const MARGIN: usize = 8;

pub trait Pattern: Copy + PartialEq + std::fmt::Debug {
    /// What stands at a place before the call: nothing that a call would write there.
    fn before(at: usize) -> Self;

    /// Whether every bit is the same.
    fn same(self, other: Self) -> bool {
        self == other
    }

    fn shown(self) -> String {
        format!("{self:?}")
    }
}

impl Pattern for u8 {
    fn before(at: usize) -> u8 {
        0x80 | (at.wrapping_mul(37).wrapping_add(11) & 0x7F) as u8
    }
}

impl Pattern for i8 {
    fn before(at: usize) -> i8 {
        20 + (at.wrapping_mul(37).wrapping_add(11) % 100) as i8
    }
}

impl Pattern for u32 {
    fn before(at: usize) -> u32 {
        0xA5C3_0000_u32.wrapping_add(at as u32)
    }
}

impl Pattern for i32 {
    fn before(at: usize) -> i32 {
        0x4BAD_0000_i32.wrapping_add(at as i32)
    }
}

impl Pattern for u64 {
    fn before(at: usize) -> u64 {
        0xA5C3_0000_0000_0000 + at as u64
    }
}

impl Pattern for i64 {
    fn before(at: usize) -> i64 {
        0x4BAD_0000_0000_0000 + at as i64
    }
}

impl Pattern for f64 {
    /// Signalling ones that are no numbers: no sum or product is one.
    fn before(at: usize) -> f64 {
        f64::from_bits(0x7FF4_0000_0000_0000 + at as u64)
    }

    fn same(self, other: f64) -> bool {
        self.to_bits() == other.to_bits()
    }

    fn shown(self) -> String {
        format!("{self:e} (bits {:016X})", self.to_bits())
    }
}

/// How long two lent lists are, seen from what the result needs.
#[derive(Clone, Copy, PartialEq, Eq, Debug)]
pub enum Room {
    Ample,
    Exact,
    FirstShort,
    SecondShort,
    BothShort,
    Nothing,
}

impl Room {
    pub const ALL: [Room; 6] = [Room::Ample, Room::Exact, Room::FirstShort, Room::SecondShort, Room::BothShort, Room::Nothing];

    pub fn lengths(self, first: usize, second: usize) -> (usize, usize) {
        let (first_less, second_less) = (first.saturating_sub(1), second.saturating_sub(1));
        match self {
            Room::Ample => (first + 13, second + 17),
            Room::Exact => (first, second),
            Room::FirstShort => (first_less, second + 17),
            Room::SecondShort => (first + 13, second_less),
            Room::BothShort => (first_less, second_less),
            Room::Nothing => (0, 0),
        }
    }
}

/// Of one lent list: nothing of it is lent.
pub const NO_ROOM: i64 = i64::MIN / 2;

/// How long one lent list is that is so much longer than the result needs, or shorter.
pub fn length(need: usize, spare: i64) -> usize {
    (need as i64 + spare).max(0) as usize
}

/// Mostly room enough.
pub fn any_spare(random: &mut Random) -> i64 {
    if random.one_in(6) { random.pick(&[-1, -1, -2, -60, NO_ROOM]) } else { random.between(0, 70) as i64 }
}

pub fn show_spare(spare: i64) -> String {
    match spare {
        NO_ROOM => "nothing is lent".into(),
        spare => format!("{spare} entries more than needed are lent"),
    }
}

pub struct Lent<T> {
    name: &'static str,
    /// where in the pattern it begins
    from: usize,
    whole: Vec<T>,
}

impl<T: Pattern> Lent<T> {
    pub fn new(name: &'static str, len: usize) -> Lent<T> {
        Lent { name, from: 0, whole: (0..len + 2 * MARGIN).map(T::before).collect() }
    }

    /// One of several numbers, of which no two are the same beforehand.
    pub fn one_of_several(name: &'static str, which: usize) -> Lent<T> {
        let from = which * (1 + 2 * MARGIN);
        Lent { name, from, whole: (from..from + 1 + 2 * MARGIN).map(T::before).collect() }
    }

    pub fn list(&mut self) -> &mut [T] {
        let end = self.whole.len() - MARGIN;
        &mut self.whole[MARGIN..end]
    }

    pub fn array<const N: usize>(&mut self) -> &mut [T; N] {
        self.list().try_into().expect("an array is lent with its own length")
    }

    pub fn number(&mut self) -> &mut T {
        &mut self.list()[0]
    }

    /// The front holds this and everything else is as it was.
    pub fn holds(&self, front: &[T]) -> Result<(), String> {
        // all at once, then one by one for what differs
        let behind = MARGIN + front.len();
        let as_before = |mut places: std::ops::Range<usize>| places.all(|at| self.whole[at].same(T::before(self.from + at)));
        let in_front = self.whole[MARGIN..behind].iter().zip(front).all(|(found, &expected)| found.same(expected));
        if in_front && as_before(0..MARGIN) && as_before(behind..self.whole.len()) {
            return Ok(());
        }
        for (at, &found) in self.whole.iter().enumerate() {
            let expected = match at.checked_sub(MARGIN) {
                Some(place) if place < front.len() => front[place],
                _ => T::before(self.from + at),
            };
            if !found.same(expected) {
                let place = at as i64 - MARGIN as i64;
                let len = self.whole.len() - 2 * MARGIN;
                let why = match at.checked_sub(MARGIN) {
                    Some(place) if place < front.len() => "where the answer stands",
                    Some(place) if place < len => "which should be as it was",
                    _ => "which was not lent",
                };
                let (found, expected) = (found.shown(), expected.shown());
                return Err(format!("`{}` (length {len}) holds {found} at place {place}, {why}: expected {expected}", self.name));
            }
        }
        Ok(())
    }

    pub fn unchanged(&self) -> Result<(), String> {
        self.holds(&[])
    }

    /// Another call left the same in a list of the same length.
    pub fn same_as(&self, other: &Lent<T>) -> Result<(), String> {
        let same = self.whole.len() == other.whole.len() && self.whole.iter().zip(&other.whole).all(|(&one, &two)| one.same(two));
        if same { Ok(()) } else { Err(format!("`{}` is not as the call without a finding leaves it", self.name)) }
    }
}
