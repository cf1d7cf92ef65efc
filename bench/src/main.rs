//! Times the port against the Rust on the same inputs and prints the tables of docs/BENCHMARKS.md.

mod amplitudes;
mod clock;
mod compare;
mod complexes;
mod counts;
mod dense;
mod growth;
mod lists;
mod page;
mod places;
mod printing;
mod products;
mod rows;
mod sheets;
mod states;
mod su2_amplitudes;
mod table;
mod trees;

use std::process::ExitCode;

type Table = (&'static str, fn() -> String);
const TABLES: [Table; 15] = [
    ("states", states::u1),
    ("places", places::table),
    ("masks", states::su2),
    ("counts", counts::table),
    ("dense", dense::table),
    ("rows", rows::table),
    ("products", products::table),
    ("amplitudes", amplitudes::table),
    ("su2_amplitudes", su2_amplitudes::table),
    ("growth", growth::u1),
    ("su2_growth", growth::su2),
    ("pentachora", complexes::pentachora),
    ("triangles", complexes::triangles),
    ("trees", trees::table),
    ("printing", printing::table),
];

fn main() -> ExitCode {
    let (flags, names): (Vec<String>, Vec<String>) = std::env::args().skip(1).partition(|word| word.starts_with('-'));
    let known = names.iter().all(|word| TABLES.iter().any(|(name, _)| name == word));
    if !known || flags.iter().any(|flag| flag != "--write") {
        eprintln!(
            "bench/run [--write] [NAME]..: prints all tables, or those that are named; --write puts them into docs/BENCHMARKS.md"
        );
        eprintln!("the names: {}", TABLES.map(|(name, _)| name).join(", "));
        return ExitCode::FAILURE;
    }
    let asked = TABLES.into_iter().filter(|(name, _)| names.is_empty() || names.iter().any(|word| word == name));
    match run(asked.collect(), !flags.is_empty()) {
        Ok(()) => ExitCode::SUCCESS,
        Err(why) => {
            eprintln!("bench: {why}");
            ExitCode::FAILURE
        }
    }
}

fn run(tables: Vec<Table>, write: bool) -> Result<(), String> {
    if write {
        tables.iter().try_for_each(|(name, _)| page::check(name))?;
    }
    for (name, table) in tables {
        let text = table();
        println!("{}\n", page::marked(name, &text));
        if write {
            page::write(name, &text)?;
        }
    }
    Ok(())
}
