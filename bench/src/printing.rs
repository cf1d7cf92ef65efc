//! The table `printing`: the program `basis` on long bases, into a file.

use crate::clock::nanoseconds;
use crate::sheets::{Sheet, chain, complete};
use crate::table::{digits, grouped, markdown, time};
use std::fs::{self, File};
use std::process::Command;

const SHEET: &str = "target/bench.gls";
const PRINTED: &str = "target/bench.txt";

pub fn table() -> String {
    // proves and builds the program where that was not done yet
    list("./basis", &complete(3, 0));
    let head = ["sheet", "states", "bytes", "program", "limit", "program / limit"].map(String::from);
    let [one, two] = [complete(4, 0).with(50), chain(62, 2).with(511)].map(|sheet| printed(&sheet));
    [SHEET, PRINTED].iter().for_each(|file| fs::remove_file(file).expect("a file"));
    markdown(1, &[head, one, two].map(Vec::from))
}

fn printed(sheet: &Sheet) -> [String; 6] {
    let program = nanoseconds(|| list("target/bin/basis", sheet));
    let text = fs::read(PRINTED).expect("the text");
    let limit = nanoseconds(|| fs::write(PRINTED, &text).expect("a file"));
    let lines = text.iter().filter(|&&byte| byte == b'\n').count();
    assert_eq!(lines, sheet.u1_states() + 1, "a line for each state after the first");
    let [states, bytes] = [sheet.u1_states(), text.len()].map(grouped);
    [sheet.name.clone(), states, bytes, time(program), time(limit), digits(program / limit)]
}

fn list(program: &str, sheet: &Sheet) {
    fs::write(SHEET, &sheet.bytes).expect("a file");
    let [given, printed] = [File::open(SHEET), File::create(PRINTED)].map(|file| file.expect("a file"));
    let status = Command::new(program).arg("list").stdin(given).stdout(printed).status();
    assert!(status.expect("the program").success());
}
