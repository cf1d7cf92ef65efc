//! The fixed list of the Rust's answers: written without the port, and read back against it. README.md describes the format.

mod answers;
mod cases;
mod held;
mod layout;
mod matrix_cases;

use answers::ask;
use cases::Cases;
use held::hold;
use layout::{Call, Fields, take};

pub const RECORD_SEED: u64 = 1;

/// The program `replay` reads no more.
const MOST_BYTES: usize = 65_535;

/// After the last case, in the place of a call's number.
const END: u8 = 0;

/// The whole list, and how many cases it has.
pub fn list() -> (Vec<u8>, usize) {
    let cases = Cases::of(RECORD_SEED).list;
    let mut bytes = vec![];
    for (call, fields) in &cases {
        let why = fields.fit(*call);
        assert!(why.is_ok(), "{call:?}: {why:?}");
        bytes.push(*call as u8);
        fields.write(&mut bytes);
    }
    bytes.push(END);
    assert!(bytes.len() <= MOST_BYTES, "the list has {} bytes", bytes.len());
    (bytes, cases.len())
}

/// One case: it fits, the Rust answers so, and so does the port.
fn compare(call: Call, fields: &Fields) -> Result<(), String> {
    fields.fit(call)?;
    if ask(call, &fields.taken(call))? != *fields {
        return Err("it is not what the Rust answers".into());
    }
    hold(call, fields).map_err(|what| format!("DIFFERENCE: {what}"))
}

/// Walks a list from front to end and holds the Rust of today, and the port, against it; answers the number of cases.
pub fn replay(bytes: &[u8]) -> Result<usize, String> {
    let mut rest = bytes;
    let mut cases = 0;
    loop {
        let number = take(&mut rest, 1)?[0];
        if number == END {
            return if rest.is_empty() { Ok(cases) } else { Err(format!("{} bytes after the end", rest.len())) };
        }
        cases += 1;
        let call = Call::of(number).ok_or_else(|| format!("case {cases} has kind {number}"))?;
        let fields = Fields::read(&mut rest)?;
        compare(call, &fields).map_err(|what| format!("case {cases}, {call:?}: {what}"))?;
    }
}
