//! A sheet whose basis is needed: the states are listed by the Rust when they are first asked for, and kept for all calls on the sheet.

use crate::case::{Kind, Tally};
use crate::lent::{self, Lent, Pattern};
use crate::listing::same_states;
use crate::pentachora::same_answer;
use crate::reference::{self, Sheet};
use crate::rust::Space;
use std::sync::{Arc, OnceLock};

/// Where there is no basis, work lists are as long as if it had so many entries.
const NO_BASIS: usize = 50;

/// What a work list begins with.
pub trait Listed: Send + Sync + Sized + 'static {
    type Entry: Pattern;

    /// The basis that any bytes say, or one of 1 to 10.
    fn read(bytes: &[u8]) -> Result<Result<Self, u8>, String>;

    /// State after state.
    fn flat(&self) -> &[Self::Entry];
}

/// The U(1) basis.
pub struct Basis {
    pub sheet: Sheet,
    pub space: Space,
    /// state after state
    pub flat: Vec<i32>,
}

impl Listed for Basis {
    type Entry = i32;

    fn read(bytes: &[u8]) -> Result<Result<Basis, u8>, String> {
        let sheet = match reference::read_for_basis(bytes) {
            Ok((sheet, _)) => sheet,
            Err(number) => return Ok(Err(number)),
        };
        let space = Space::new(&sheet.complex, sheet.lambda);
        same_states(&sheet, space.states())?;
        let flat = space.states().concat();
        Ok(Ok(Basis { sheet, space, flat }))
    }

    fn flat(&self) -> &[i32] {
        &self.flat
    }
}

/// Any bytes, with the basis or one of 1 to 10.
pub struct Given<B = Basis> {
    pub bytes: Vec<u8>,
    judged: Arc<OnceLock<Result<Result<B, u8>, String>>>,
}

impl<B> Clone for Given<B> {
    fn clone(&self) -> Given<B> {
        Given { bytes: self.bytes.clone(), judged: self.judged.clone() }
    }
}

impl<B: Listed> Given<B> {
    pub fn new(bytes: Vec<u8>) -> Given<B> {
        Given { bytes, judged: Arc::default() }
    }

    pub fn of(sheet: &Sheet) -> Given<B> {
        Given::new(reference::encode(sheet))
    }

    pub fn basis(&self) -> Result<Result<&B, u8>, String> {
        let judged = self.judged.get_or_init(|| B::read(&self.bytes));
        judged.as_ref().map(|judged| judged.as_ref().map_err(|&number| number)).map_err(String::clone)
    }

    /// The basis of a sheet that is not refused; that the Rust's states are the right ones is judged by the calls themselves.
    pub fn accepted(&self) -> Option<&B> {
        self.basis().ok().and_then(Result::ok)
    }

    /// How many entries the basis has.
    pub fn need(&self) -> Result<usize, String> {
        Ok(self.basis()?.map_or(NO_BASIS, |basis| basis.flat().len()))
    }

    /// A call with a work list alone, which is so much longer than the basis, or shorter. What it answered and left is right, and handed back.
    pub fn compare(
        &self,
        kind: Kind,
        spare: i64,
        expected: impl Fn(&B, usize) -> Result<Result<usize, u8>, String>,
        call: impl FnOnce(&[u8], &mut [B::Entry]) -> i64,
        tally: &mut Tally,
    ) -> Result<(i64, Lent<B::Entry>), String> {
        let room = lent::length(self.need()?, spare);
        let expected = match self.basis()? {
            Ok(basis) => expected(basis, room)?,
            Err(number) => Err(number),
        };
        tally.count(kind, expected.err().unwrap_or(0));
        let mut states = Lent::new("states", room);
        let answer = call(&self.bytes, states.list());
        self.told(answer, expected, &states)?;
        Ok((answer, states))
    }

    /// The answer is the expected one and the work list begins with the basis, or it is the refusal and the list is as it was.
    pub fn told(&self, answer: i64, expected: Result<usize, u8>, states: &Lent<B::Entry>) -> Result<(), String> {
        match (expected, self.basis()?) {
            (Ok(expected), Ok(basis)) => {
                same_answer(answer, expected as i64)?;
                states.holds(basis.flat())
            }
            (Ok(_), Err(_)) => Err("the judge expects an answer without a basis".into()),
            (Err(number), _) => {
                same_answer(answer, -i64::from(number))?;
                states.unchanged()
            }
        }
    }
}

/// The Rust has nothing where a refusal is expected.
pub fn agree<T: PartialEq>(by_rust: Option<T>, expected: &Result<T, u8>) -> Result<(), String> {
    if by_rust.as_ref() == expected.as_ref().ok() { Ok(()) } else { Err("the judge's own place and the Rust's differ".into()) }
}
