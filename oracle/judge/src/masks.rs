//! `su2_basis`: the Rust judges the masks, the reference the refusals.

use crate::basis::Listed;
use crate::case::{Case, Kind, Tally};
use crate::lent::{self, Lent};
use crate::pentachora::same_answer;
use crate::reference::{self, Sheet};
use crate::rust::Su2Space;
use crate::sheets::{hexadecimal, sheet_size, simpler_sheets};
use crate::shrink::simpler_lambdas;
use zibrotka::calls;

/// Up to so many edges every set of them is tried as well.
const FEW: usize = 16;

/// Where nothing is to be written, the lent list is as long as for so many masks.
const NO_MASKS: u64 = 50;

/// `su2_basis` of any bytes.
#[derive(Clone)]
pub struct Masks {
    pub sheet: Vec<u8>,
    /// the lent list is this much longer than the masks, or shorter
    pub spare: i64,
}

impl Masks {
    pub fn of(sheet: &Sheet, spare: i64) -> Masks {
        Masks { sheet: reference::encode(sheet), spare }
    }

    /// The masks, or the first refusal that holds.
    pub fn expected(&self, room: usize) -> Result<Result<Vec<u64>, u8>, String> {
        match reference::read_for_masks(&self.sheet) {
            Ok((_, count)) if (room as u64) < count => Ok(Err(15)),
            Ok((sheet, count)) => by_rust(&sheet, count).map(|space| Ok(space.states().to_vec())),
            Err(number) => Ok(Err(number)),
        }
    }
}

/// The masks of a sheet's complex, for calls with a work list.
pub struct EvenSets {
    pub sheet: Sheet,
    pub space: Su2Space,
}

impl Listed for EvenSets {
    type Entry = u64;

    fn read(bytes: &[u8]) -> Result<Result<EvenSets, u8>, String> {
        match reference::read_for_masks(bytes) {
            Ok((sheet, count)) => by_rust(&sheet, count).map(|space| Ok(EvenSets { sheet, space })),
            Err(number) => Ok(Err(number)),
        }
    }

    fn flat(&self) -> &[u64] {
        self.space.states()
    }
}

/// The Rust's masks, which must be so many, ascend and be even; where the edges are few, no other set is even.
fn by_rust(sheet: &Sheet, count: u64) -> Result<Su2Space, String> {
    let space = Su2Space::new(&sheet.complex);
    let masks = space.states();
    if masks.len() as u64 != count {
        return Err(format!("the Rust lists {} masks, and {count} are expected", masks.len()));
    }
    if !masks.is_sorted_by(|one, next| one < next) {
        return Err("the Rust's masks do not ascend".into());
    }
    if !masks.iter().all(|&mask| reference::even(&sheet.complex, mask)) {
        return Err("one of the Rust's masks is odd at a vertex".into());
    }
    if sheet.complex.edges.len() <= FEW && reference::masks(&sheet.complex) != masks {
        return Err("the judge's own masks and the Rust's differ".into());
    }
    Ok(space)
}

impl Case for Masks {
    fn compare(&self, tally: &mut Tally) -> Result<(), String> {
        let need = reference::read_for_masks(&self.sheet).map_or(NO_MASKS, |(_, count)| count);
        let room = lent::length(need as usize, self.spare);
        let expected = self.expected(room)?;
        let mut lent = Lent::<u64>::new("states", room);
        let answer = calls::su2_basis(&self.sheet, lent.list());
        tally.count(Kind::Masks, expected.as_ref().err().copied().unwrap_or(0));
        match expected {
            Ok(masks) => {
                same_answer(answer, masks.len() as i64)?;
                lent.holds(&masks)
            }
            Err(number) => {
                same_answer(answer, -i64::from(number))?;
                lent.unchanged()
            }
        }
    }

    fn simpler(&self) -> Vec<Masks> {
        let sheets = simpler_lambdas(&self.sheet).into_iter().chain(simpler_sheets(&self.sheet));
        let mut simpler: Vec<Masks> = sheets.map(|sheet| Masks { sheet, ..*self }).collect();
        simpler.extend([0, 1, -1].map(|spare| Masks { spare, ..self.clone() }));
        simpler
    }

    fn size(&self) -> Vec<u128> {
        [sheet_size(&self.sheet), vec![u128::from(self.spare.unsigned_abs())]].concat()
    }

    fn show(&self) -> String {
        format!("su2_basis: sheet {}, {}", hexadecimal(&self.sheet), lent::show_spare(self.spare))
    }
}
