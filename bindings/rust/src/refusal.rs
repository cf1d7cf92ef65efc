use crate::calls;
use std::fmt;

/// Why a call gives no answer. Of several reasons it is the one with the smallest number.
#[derive(Clone, Copy, Debug, PartialEq, Eq, PartialOrd, Ord, Hash)]
pub enum Refusal {
    /// 1: the sheet has fewer than 11 bytes.
    ShortSheet = 1,
    /// 2: the sheet does not begin with the mark `GLS`.
    NoMark,
    /// 3: the sheet's version is not 1.
    OtherVersion,
    /// 4: the number of vertices is not 1 to 64, or there are more than 63 edges or more than 256 triangles.
    WrongCounts,
    /// 5: the truncation L is over 1000.
    LargeTruncation,
    /// 6: the length does not fit the counts: a sheet has 11 + 2E + 3T bytes, a flat list two entries an edge and three a triangle.
    WrongLength,
    /// 7: an edge is not a < b < V, or is listed twice.
    WrongEdge,
    /// 8: a triangle is not a < b < c < V, is listed twice, or has an edge that is not listed.
    WrongTriangle,
    /// 9: some vertex cannot be reached from vertex 0 over the listed edges.
    Disconnected,
    /// 10: there are more than 1048576 candidates: too many free edges, or for U(1) too large a truncation for them.
    ManyCandidates,
    /// 11: a pentachoron has a vertex that is not below V or one vertex twice, or their flat list is no multiple of five long.
    WrongPentachoron,
    /// 12: a list does not have the length that it must have.
    WrongListLength,
    /// 13: a number is outside its range: no such edge, triangle, state, column or refusal, starts that do not run from 0 to the
    /// number of entries, or a direction that is not 1 or -1.
    OutOfRange,
    /// 14: a float is outside its range, or a coupling record's factors are not those of its coupling in the mode of the call.
    WrongFloat,
    /// 15: a list for the result, or a work list, is too short. Only [`calls`](crate::calls) tell it.
    NoRoom,
    /// 16: a shifted edge leaves -L to L.
    OutOfBand,
    /// 17: the configuration is not in the basis.
    NotInBasis,
}

use Refusal::*;

const ALL: [Refusal; 17] = [
    ShortSheet,
    NoMark,
    OtherVersion,
    WrongCounts,
    LargeTruncation,
    WrongLength,
    WrongEdge,
    WrongTriangle,
    Disconnected,
    ManyCandidates,
    WrongPentachoron,
    WrongListLength,
    OutOfRange,
    WrongFloat,
    NoRoom,
    OutOfBand,
    NotInBasis,
];

impl Refusal {
    /// The number by which the library names it, 1 to 17.
    pub fn number(self) -> u8 {
        self as u8
    }

    /// The library's sentence for it.
    pub fn sentence(self) -> String {
        text(u64::from(self.number())).expect("each refusal has a sentence")
    }

    /// What an answer of [`calls`](crate::calls) refuses: none where it is a value, and none where no refusal has the number.
    pub fn of_answer(answer: i64) -> Option<Refusal> {
        if answer < 0 { Refusal::try_from(answer.unsigned_abs()).ok() } else { None }
    }
}

/// `refused`, the number and the sentence.
impl fmt::Display for Refusal {
    fn fmt(&self, f: &mut fmt::Formatter) -> fmt::Result {
        write!(f, "refused {}: {}", self.number(), self.sentence())
    }
}

impl std::error::Error for Refusal {}

/// The refusal with a number, or 13 where none has it.
impl TryFrom<u64> for Refusal {
    type Error = Refusal;

    fn try_from(number: u64) -> Result<Refusal, Refusal> {
        ALL.into_iter().find(|refusal| u64::from(refusal.number()) == number).ok_or(OutOfRange)
    }
}

/// The refusal with a number, or 13 where none has it. For an answer, minus the number, see [`Refusal::of_answer`].
impl TryFrom<i64> for Refusal {
    type Error = Refusal;

    fn try_from(number: i64) -> Result<Refusal, Refusal> {
        u64::try_from(number).map_err(|_| OutOfRange)?.try_into()
    }
}

/// The library's sentence for the refusal with a number.
pub fn text(number: u64) -> Result<String, Refusal> {
    let mut text = [0; calls::TEXT_BYTES];
    let length = crate::told::told(calls::refusal_text(number, &mut text), &[13])?;
    Ok(String::from_utf8(text[..length].to_vec()).expect("a sentence is plain ASCII"))
}
