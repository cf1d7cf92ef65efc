//! The coupling with its two factors, as all matrix routines take it, and `u1_params` and `su2_params`, which make it: the formulas that
//! the Rust has inside its builders judge it, and the scope paper its range.

use crate::case::{Case, Kind, Tally};
use crate::floats;
use crate::lent::Lent;
use crate::pentachora::same_answer;
use crate::random::Random;
use zibrotka::calls;

/// The ends of the range of g², 2^-32 and 2^32.
pub const ENDS: [f64; 2] = [1.0 / 4_294_967_296.0, 4_294_967_296.0];

/// None of them is in the range of g².
pub const OUTSIDE: [f64; 16] = [
    f64::NAN,
    f64::from_bits(0xFFF8_0000_0000_0000),
    f64::from_bits(0x7FF0_0000_0000_0001),
    f64::INFINITY,
    f64::NEG_INFINITY,
    0.0,
    -0.0,
    -1.0,
    -ENDS[0],
    -ENDS[1],
    ENDS[0].next_down(),
    ENDS[1].next_up(),
    f64::MIN_POSITIVE,
    f64::from_bits(1),
    f64::MAX,
    f64::MIN,
];

/// g² with its electric and its magnetic factor, or what pretends to be that.
pub type Coupling = [f64; 3];

/// The two truncations, each with factors of its own.
#[derive(Clone, Copy, PartialEq, Eq, Debug)]
pub enum Mode {
    U1,
    Su2,
}

impl Mode {
    pub const BOTH: [Mode; 2] = [Mode::U1, Mode::Su2];

    pub fn other(self) -> Mode {
        if self == Mode::U1 { Mode::Su2 } else { Mode::U1 }
    }

    /// By the formulas alone; the range is not looked at.
    pub fn params(self, g_squared: f64) -> Coupling {
        match self {
            Mode::U1 => [g_squared, g_squared / 2.0, -1.0 / g_squared],
            Mode::Su2 => [g_squared, 3.0 * g_squared / 8.0, -0.5 / g_squared],
        }
    }

    /// Whether both factors are those of g², in the range or out of it.
    pub fn owns(self, coupling: Coupling) -> bool {
        let [_, electric, magnetic] = self.params(coupling[0]);
        coupling[1] == electric && coupling[2] == magnetic
    }

    /// 14, unless g² is in its range and the factors are its own.
    pub fn judge(self, coupling: Coupling) -> Result<(), u8> {
        if in_range(coupling[0]) && self.owns(coupling) { Ok(()) } else { Err(14) }
    }

    fn call(self, g_squared: f64, params: &mut [f64; 3]) -> i64 {
        match self {
            Mode::U1 => calls::u1_params(g_squared, params),
            Mode::Su2 => calls::su2_params(g_squared, params),
        }
    }
}

fn in_range(g_squared: f64) -> bool {
    (ENDS[0]..=ENDS[1]).contains(&g_squared)
}

/// `u1_params` or `su2_params` of any float.
#[derive(Clone)]
pub struct Params {
    pub mode: Mode,
    pub g_squared: f64,
}

impl Case for Params {
    fn compare(&self, tally: &mut Tally) -> Result<(), String> {
        let right = in_range(self.g_squared);
        let kind = if self.mode == Mode::U1 { Kind::U1Params } else { Kind::Su2Params };
        tally.count(kind, if right { 0 } else { 14 });
        let mut params = Lent::<f64>::new("params", 3);
        let answer = self.mode.call(self.g_squared, params.array());
        if right {
            same_answer(answer, 0)?;
            params.holds(&self.mode.params(self.g_squared))
        } else {
            same_answer(answer, -14)?;
            params.unchanged()
        }
    }

    fn simpler(&self) -> Vec<Params> {
        floats::simpler(self.g_squared).into_iter().map(|g_squared| Params { g_squared, ..*self }).collect()
    }

    fn size(&self) -> Vec<u128> {
        vec![floats::size(self.g_squared)]
    }

    fn show(&self) -> String {
        format!("params of {:?}: g² {}", self.mode, floats::show(&[self.g_squared]))
    }
}

// ---- random ones

/// In its range, the ends and their neighbours often.
pub fn any_g_squared(random: &mut Random) -> f64 {
    match random.below(4) {
        0 => random.pick(&[ENDS[0], ENDS[0].next_up(), ENDS[1], ENDS[1].next_down()]),
        1 => random.pick(&[1.0, 3.0, 1.0 / 3.0, 2.0, 0.1]),
        _ => floats::between_powers(random, -32, 32),
    }
}

/// Mostly right, else with one thing wrong, or with everything.
pub fn any_coupling(random: &mut Random, mode: Mode) -> Coupling {
    let mut coupling = mode.params(any_g_squared(random));
    match random.below(40) {
        0 => coupling = mode.params(random.pick(&OUTSIDE)),
        1 => coupling = mode.other().params(coupling[0]),
        2 => coupling.swap(1, 2),
        3 => coupling = [random.pick(&OUTSIDE); 3],
        4 | 5 => {
            let at = random.between(0, 2) as usize;
            coupling[at] = random.pick(&[coupling[at].next_up(), coupling[at].next_down(), -coupling[at], f64::NAN, 0.0]);
        }
        _ => {}
    }
    coupling
}

// ---- smaller ones

/// With the factors of a simpler g² where they are its own, else one float after the other.
pub fn simpler(mode: Mode, coupling: Coupling) -> Vec<Coupling> {
    let mut simpler = vec![mode.params(1.0)];
    if mode.owns(coupling) {
        simpler.extend(floats::simpler(coupling[0]).into_iter().map(|g_squared| mode.params(g_squared)));
        return simpler;
    }
    for at in 0..3 {
        for float in floats::simpler(coupling[at]) {
            let mut other = coupling;
            other[at] = float;
            simpler.push(other);
        }
    }
    simpler
}
