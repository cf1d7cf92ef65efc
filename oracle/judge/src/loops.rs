//! `fundamental_loops` and `su2_fundamental_loops`: the Rust judges, the reference tells the refusals.

use crate::case::{Case, Kind, Tally};
use crate::lent::{self, Lent, Room};
use crate::pentachora::same_answer;
use crate::reference;
use crate::rust;
use crate::sheets::{hexadecimal, sheet_size, simpler_sheets};
use zibrotka::calls;

/// Both calls on any bytes. The directions have so many entries more than needed, or less.
#[derive(Clone)]
pub struct Loops {
    pub sheet: Vec<u8>,
    pub room: Room,
    pub spare: i64,
}

/// Where each loop begins and last where all end, and all steps.
pub struct Steps {
    pub starts: Vec<u32>,
    pub edges: Vec<u8>,
    pub directions: Vec<i8>,
}

impl Steps {
    pub fn of(loops: &[Vec<(usize, i32)>]) -> Steps {
        let mut steps = Steps { starts: vec![0], edges: vec![], directions: vec![] };
        for one in loops {
            steps.edges.extend(one.iter().map(|&(edge, _)| edge as u8));
            steps.directions.extend(one.iter().map(|&(_, direction)| direction as i8));
            steps.starts.push(steps.edges.len() as u32);
        }
        steps
    }

    /// Of loops that have no directions.
    pub fn without_directions(loops: &[Vec<usize>]) -> Steps {
        let steps: Vec<Vec<(usize, i32)>> = loops.iter().map(|one| one.iter().map(|&edge| (edge, 0)).collect()).collect();
        Steps { directions: vec![], ..Steps::of(&steps) }
    }

    pub fn count(&self) -> i64 {
        self.starts.len() as i64 - 1
    }
}

impl Case for Loops {
    fn compare(&self, tally: &mut Tally) -> Result<(), String> {
        let by_rust = match reference::read_sheet(&self.sheet) {
            Ok(sheet) => {
                let steps = Steps::of(&rust::fundamental_loops(&sheet.complex));
                let plain = Steps::without_directions(&rust::su2_fundamental_loops(&sheet.complex));
                if plain.starts != steps.starts || plain.edges != steps.edges {
                    return Err("the edges of the Rust's two lists of loops differ".into());
                }
                Ok(steps)
            }
            Err(number) => Err(number),
        };
        let need = by_rust.as_ref().map_or((64, 100), |steps| (steps.starts.len(), steps.edges.len()));
        let (starts_room, edges_room) = self.room.lengths(need.0, need.1);
        let directions_room = lent::length(need.1, self.spare);
        let short = starts_room < need.0 || edges_room < need.1;
        let refusal = |short: bool| by_rust.as_ref().map_or_else(|&number| number, |_| if short { 15 } else { 0 });

        let mut starts = Lent::<u32>::new("starts", starts_room);
        let mut edges = Lent::<u8>::new("edges", edges_room);
        let mut directions = Lent::<i8>::new("directions", directions_room);
        let answer = calls::fundamental_loops(&self.sheet, starts.list(), edges.list(), directions.list());
        let expected = refusal(short || directions_room < need.1);
        tally.count(Kind::Loops, expected);
        match &by_rust {
            Ok(steps) if expected == 0 => {
                same_answer(answer, steps.count())?;
                starts.holds(&steps.starts)?;
                edges.holds(&steps.edges)?;
                directions.holds(&steps.directions)?;
            }
            _ => {
                same_answer(answer, -i64::from(expected))?;
                starts.unchanged()?;
                edges.unchanged()?;
                directions.unchanged()?;
            }
        }

        let mut starts = Lent::<u32>::new("starts", starts_room);
        let mut edges = Lent::<u8>::new("edges", edges_room);
        let answer = calls::su2_fundamental_loops(&self.sheet, starts.list(), edges.list());
        let expected = refusal(short);
        tally.count(Kind::Su2Loops, expected);
        match &by_rust {
            Ok(steps) if expected == 0 => {
                same_answer(answer, steps.count())?;
                starts.holds(&steps.starts)?;
                edges.holds(&steps.edges)
            }
            _ => {
                same_answer(answer, -i64::from(expected))?;
                starts.unchanged()?;
                edges.unchanged()
            }
        }
    }

    fn simpler(&self) -> Vec<Loops> {
        let sheets = simpler_sheets(&self.sheet).into_iter();
        let mut simpler: Vec<Loops> = sheets.map(|sheet| Loops { sheet, ..self.clone() }).collect();
        simpler.extend(Room::ALL.map(|room| Loops { room, ..self.clone() }));
        simpler.extend([0, -1].map(|spare| Loops { spare, ..self.clone() }));
        simpler
    }

    fn size(&self) -> Vec<u128> {
        [sheet_size(&self.sheet), vec![self.room as u128, self.spare.unsigned_abs().into()]].concat()
    }

    fn show(&self) -> String {
        format!("loops: sheet {}, room {:?}, directions: {}", hexadecimal(&self.sheet), self.room, lent::show_spare(self.spare))
    }
}
