//! `enumerate_gauge_invariant`: the Rust judges the states, the reference the refusals.

use crate::case::{Case, Kind, Tally};
use crate::lent::{self, Lent};
use crate::pentachora::same_answer;
use crate::reference::{self, Sheet};
use crate::rust;
use crate::sheets::{hexadecimal, sheet_size, simpler_sheets};
use crate::shrink::simpler_lambdas;
use zibrotka::calls;

/// Up to so many assignments the definition itself is tried as well.
const FEW: u64 = 3_000;

/// `enumerate_gauge_invariant` of any bytes.
#[derive(Clone)]
pub struct Listing {
    pub sheet: Vec<u8>,
    /// the lent list is this much longer than the states, or shorter
    pub spare: i64,
}

impl Listing {
    pub fn of(sheet: &Sheet, spare: i64) -> Listing {
        Listing { sheet: reference::encode(sheet), spare }
    }

    /// The number of states and all their values, or one of 1 to 10.
    pub fn expected(&self) -> Result<Result<(usize, Vec<i32>), u8>, String> {
        let sheet = match reference::read_for_basis(&self.sheet) {
            Ok((sheet, _)) => sheet,
            Err(number) => return Ok(Err(number)),
        };
        let states = rust::enumerate_gauge_invariant(&sheet.complex, sheet.lambda);
        same_states(&sheet, &states)?;
        let mut flat = Vec::with_capacity(states.len() * sheet.complex.edges.len());
        let count = states.len();
        states.into_iter().for_each(|state| flat.extend(state));
        Ok(Ok((count, flat)))
    }
}

/// Where they are few, the Rust's states are those of the definition.
pub fn same_states(sheet: &Sheet, states: &[Vec<i32>]) -> Result<(), String> {
    let assignments = (2 * sheet.lambda + 1).checked_pow(sheet.complex.edges.len() as u32);
    if assignments.is_some_and(|all| all <= FEW) && reference::states(&sheet.complex, sheet.lambda) != states {
        return Err("the judge's own states and the Rust's differ".into());
    }
    Ok(())
}

impl Case for Listing {
    fn compare(&self, tally: &mut Tally) -> Result<(), String> {
        let mut expected = self.expected()?;
        let need = expected.as_ref().map_or(50, |(_, states)| states.len());
        let room = lent::length(need, self.spare);
        if expected.is_ok() && room < need {
            expected = Err(15);
        }
        let mut lent = Lent::<i32>::new("states", room);
        let answer = calls::enumerate_gauge_invariant(&self.sheet, lent.list());
        tally.count(Kind::Listings, expected.as_ref().err().copied().unwrap_or(0));
        match expected {
            Ok((count, states)) => {
                same_answer(answer, count as i64)?;
                lent.holds(&states)
            }
            Err(number) => {
                same_answer(answer, -i64::from(number))?;
                lent.unchanged()
            }
        }
    }

    fn simpler(&self) -> Vec<Listing> {
        let sheets = simpler_lambdas(&self.sheet).into_iter().chain(simpler_sheets(&self.sheet));
        let mut simpler: Vec<Listing> = sheets.map(|sheet| Listing { sheet, ..*self }).collect();
        simpler.extend([0, 1, -1].map(|spare| Listing { spare, ..self.clone() }));
        simpler
    }

    fn size(&self) -> Vec<u128> {
        [sheet_size(&self.sheet), vec![u128::from(self.spare.unsigned_abs())]].concat()
    }

    fn show(&self) -> String {
        format!("enumerate_gauge_invariant: sheet {}, {}", hexadecimal(&self.sheet), lent::show_spare(self.spare))
    }
}
