//! The weights of triangles: given, or absent beside a list that is then not to be looked at.

use crate::floats;
use crate::random::Random;

/// 2^32, the largest weight; its negative is the smallest.
pub const MOST: f64 = 4_294_967_296.0;

/// No weight may be one of them.
pub const OUTSIDE: [f64; 8] = [
    f64::NAN,
    f64::from_bits(0xFFF0_0000_0000_0001),
    f64::INFINITY,
    f64::NEG_INFINITY,
    MOST.next_up(),
    -MOST.next_up(),
    f64::MAX,
    f64::MIN,
];

/// 12, then 14, of floats that are to be so many: amplitudes have the bounds of weights.
pub fn judge(list: &[f64], len: usize) -> Result<(), u8> {
    if list.len() != len {
        return Err(12);
    }
    if list.iter().all(|float| (-MOST..=MOST).contains(float)) { Ok(()) } else { Err(14) }
}

#[derive(Clone)]
pub struct Weights {
    pub given: bool,
    pub list: Vec<f64>,
}

impl Weights {
    pub fn absent() -> Weights {
        Weights { given: false, list: vec![] }
    }

    pub fn of(list: Vec<f64>) -> Weights {
        Weights { given: true, list }
    }

    /// What the Rust is handed.
    pub fn option(&self) -> Option<&[f64]> {
        self.given.then_some(&self.list)
    }

    /// 12, then 14, for so many triangles.
    pub fn judge(&self, n_triangles: usize) -> Result<(), u8> {
        if self.given { judge(&self.list, n_triangles) } else { Ok(()) }
    }

    /// Absent ones are smaller than any that are given, and those that are not looked at count as well.
    pub fn size(&self) -> Vec<u128> {
        let sizes = self.list.iter().map(|&weight| floats::size(weight)).sum();
        vec![u128::from(self.given), self.list.len() as u128, sizes]
    }

    pub fn show(&self) -> String {
        format!("weights {} {}", if self.given { "given" } else { "not given" }, floats::show(&self.list))
    }
}

// ---- random ones

/// Absent, or one for each triangle, now and then with a fault.
pub fn any(random: &mut Random, n_triangles: usize) -> Weights {
    if random.one_in(4) {
        let len = random.pick(&[0, 0, n_triangles, n_triangles + 1, n_triangles.saturating_sub(1)]);
        return Weights { given: false, list: vec![random.pick(&OUTSIDE); len] };
    }
    let mut weights = Weights::of(right(random, n_triangles));
    if random.one_in(10) {
        damage(random, &mut weights.list);
    }
    weights
}

/// All of one sort, or of every sort.
pub fn right(random: &mut Random, len: usize) -> Vec<f64> {
    let sort = random.below(8);
    of_sort(random, sort, len)
}

/// How many sorts there are.
pub const SORTS: u64 = 6;

/// All of one sort, by its number; from `SORTS` on of every sort.
pub fn of_sort(random: &mut Random, sort: u64, len: usize) -> Vec<f64> {
    (0..len)
        .map(|_| {
            let sort = if sort < SORTS { sort } else { random.below(SORTS) };
            weight(random, sort)
        })
        .collect()
}

/// Ordinary, huge, tiny, subnormal, of any size, and none at all.
fn weight(random: &mut Random, sort: u64) -> f64 {
    let weight = match sort {
        0 => random.pick(&[1.0, 0.5, 2.0, 0.1, 3.0, 1.0 / 3.0, 0.75]),
        1 => random.pick(&[MOST, MOST.next_down(), MOST / 2.0, MOST / 3.0]),
        2 => floats::between_powers(random, -1022, -900),
        3 if random.one_in(2) => floats::power(-1074 + random.below(54) as i32),
        3 => f64::from_bits(random.next() >> random.between(12, 63)),
        4 => floats::between_powers(random, -1022, 32),
        _ => 0.0,
    };
    floats::signed(random, weight)
}

/// One float is wrong, or their number is.
pub fn damage(random: &mut Random, list: &mut Vec<f64>) {
    match random.below(5) {
        0 => list.push(1.0),
        1 => drop(list.pop()),
        2 => list.clear(),
        _ if !list.is_empty() => {
            let at = random.place(list);
            list[at] = random.pick(&OUTSIDE);
        }
        _ => list.push(f64::NAN),
    }
}
