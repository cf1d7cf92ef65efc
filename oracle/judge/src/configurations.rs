//! Random configurations: lawful ones made by adding cycles, ones that just miss the law, and any others.

use crate::random::Random;
use crate::reference::{self, Complex};

/// A tree that hangs from vertex 0: of each other vertex the edge towards 0.
pub struct Hanging<'a> {
    complex: &'a Complex,
    up: Vec<Option<usize>>,
    pub free: Vec<usize>,
}

impl Hanging<'_> {
    pub fn of(complex: &Complex) -> Hanging<'_> {
        let (tree, free) = reference::tree(complex);
        let mut up = vec![None; complex.vertices as usize];
        let mut there = vec![0];
        for number in tree {
            let [a, b] = complex.edges[number as usize];
            let new = if there.contains(&a) { b } else { a };
            there.push(new);
            up[usize::from(new)] = Some(number as usize);
        }
        Hanging { complex, up, free: free.iter().map(|&number| number as usize).collect() }
    }

    /// Lets so much run through the tree from one vertex to another.
    pub fn run(&self, from: u8, to: u8, much: i64, values: &mut [i64]) {
        for (end, much) in [(from, much), (to, -much)] {
            let mut here = end;
            while let Some(number) = self.up[usize::from(here)] {
                let [a, b] = self.complex.edges[number];
                values[number] += if here == a { much } else { -much };
                here = if here == a { b } else { a };
            }
        }
    }

    /// Lets so much run over a free edge and back through the tree.
    pub fn round(&self, number: usize, much: i64, values: &mut [i64]) {
        values[number] += much;
        let [a, b] = self.complex.edges[number];
        self.run(b, a, much, values);
    }

    /// A few cycles on top of nothing, each through one free edge; one that would leave the range is left out.
    fn lawful(&self, random: &mut Random, most: i64) -> Vec<i64> {
        let mut values = vec![0; self.complex.edges.len()];
        if self.free.is_empty() {
            return values;
        }
        for _ in 0..random.between(1, 2 * self.free.len() as u64) {
            let number = random.pick(&self.free);
            let reach = if random.one_in(2) { most } else { 3.min(most) };
            let much = within(random, reach);
            let mut more = values.clone();
            self.round(number, much, &mut more);
            if more.iter().all(|value| value.abs() <= most) {
                values = more;
            }
        }
        values
    }
}

fn within(random: &mut Random, most: i64) -> i64 {
    random.below(2 * most as u64 + 1) as i64 - most
}

/// As many values as the complex has edges.
pub fn any(random: &mut Random, complex: &Complex) -> Vec<i32> {
    let most = random.pick(&[1, 2, 1000, 1 << 16, 1 << 24, 1 << 24, (1 << 31) - 1, (1 << 31) - 1]);
    let hanging = Hanging::of(complex);
    let mut values = hanging.lawful(random, most);
    if values.is_empty() {
        return vec![];
    }
    match random.below(8) {
        // one value off, by a little or by what narrower words would lose
        0 | 1 => {
            let off = random.pick(&[1, -1, 2, 1 << 8, 1 << 16, 1 << 24, -(1 << 24), 1 << 31]);
            let at = random.place(&values);
            values[at] += if values[at] + off > i64::from(i32::MAX) { -off } else { off };
        }
        // right but for two vertices, near each other or not
        2 => {
            let (from, to) = (random.below(complex.vertices) as u8, random.below(complex.vertices) as u8);
            let much = random.pick(&[1, -1, 1 << 16]);
            hanging.run(from, to, much, &mut values);
        }
        // lawful in whole numbers, then cut to so many bits: each sum is a multiple of what was cut at
        3 => {
            let bits = random.pick(&[8, 16, 24, 32, 32, 32]);
            let cut = |value: i64| (value << (64 - bits)) >> (64 - bits);
            values = hanging.lawful(random, 1 << 36).into_iter().map(cut).collect();
        }
        // any values
        4 => values.iter_mut().for_each(|value| *value = within(random, most)),
        // the ends of the range
        5 if random.one_in(2) => {
            let ends = [i32::MIN, i32::MIN, i32::MAX, 0].map(i64::from);
            values.iter_mut().for_each(|value| *value = random.pick(&ends));
        }
        _ => {}
    }
    values.into_iter().map(|value| value as i32).collect()
}

/// The same with an entry too few or too many now and then.
pub fn any_length(random: &mut Random, complex: &Complex) -> Vec<i32> {
    let mut values = any(random, complex);
    match random.below(20) {
        0 => drop(values.pop()),
        1 => values.push(0),
        2 => values.clear(),
        3 => values.extend(values.clone()),
        _ => {}
    }
    values
}
