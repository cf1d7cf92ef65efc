//! Holds the port against the Rust, and against the scope paper where the Rust has no say.

mod amplitude_runs;
mod amplitudes;
mod basis;
mod case;
mod complexes;
mod configurations;
mod coupling_runs;
mod couplings;
mod dense;
mod dense_runs;
mod entries;
mod even_product_runs;
mod even_products;
mod finding_runs;
mod findings;
mod floats;
mod inputs;
mod law;
mod law_runs;
mod lent;
mod listing;
mod loops;
mod mask_runs;
mod masks;
mod pentachora;
mod place_runs;
mod places;
mod product;
mod random;
mod record;
mod reference;
mod row_lists;
mod row_runs;
mod runs;
mod rust;
mod sheets;
mod shifts;
mod shrink;
mod weights;

use case::Tally;
use std::process::ExitCode;

const USAGE: &str = "\
judge quick               every short input, then random ones of a fixed seed: two to three minutes
judge long SEED MINUTES   random inputs of a seed for so many minutes
judge record FILE         writes the fixed list of the Rust's answers
judge replay FILE         holds the port against such a list";

fn main() -> ExitCode {
    let words: Vec<String> = std::env::args().skip(1).collect();
    let words: Vec<&str> = words.iter().map(String::as_str).collect();
    let done = match words[..] {
        ["quick"] => {
            case::watch();
            let tally = runs::quick();
            let missed = tally.missed();
            finish(&tally);
            if missed.is_empty() { Ok(()) } else { Err(format!("no input asked for: {}", missed.join(", "))) }
        }
        ["long", seed, minutes] => match (seed.parse(), minutes.parse::<f64>()) {
            (Ok(seed), Ok(minutes)) if (0.0..1e9).contains(&minutes) => {
                case::watch();
                finish(&runs::long(seed, minutes));
                Ok(())
            }
            _ => Err(USAGE.into()),
        },
        ["record", file] => {
            let (bytes, cases) = record::list();
            println!("{cases} cases, {} bytes, seed {}", bytes.len(), record::RECORD_SEED);
            std::fs::write(file, bytes).map_err(|why| format!("{file}: {why}"))
        }
        ["replay", file] => {
            let bytes = std::fs::read(file).map_err(|why| format!("{file}: {why}"));
            bytes.and_then(|bytes| record::replay(&bytes)).map(|cases| println!("{cases} cases replayed, no difference"))
        }
        _ => Err(USAGE.into()),
    };
    match done {
        Ok(()) => ExitCode::SUCCESS,
        Err(what) => {
            println!("{what}");
            ExitCode::FAILURE
        }
    }
}

fn finish(tally: &Tally) {
    tally.print_answers();
    println!("{}", tally.last_line());
}
