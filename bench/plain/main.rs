//! A plain program beside the proved one, which `further.sh` measures it against. It has what that
//! script needs of four commands, and writes the same bytes:
//!
//!     plain compile FORMAT qubo FILE [slack=pairs] [bound=N]
//!     plain size FORMAT qubo FILE [slack=pairs] [bound=N]
//!     plain solve FORMAT qubo FILE [order=NAME]
//!     plain evaluate qubo qubo FILE STATES
//!
//! FORMAT is `wcnf`, `opb` or `qubo`. It is written from the documents, shares no code with the
//! program, and has sums of 128 bits as well. It leaves out: faults of texts, which it may read in
//! any way; every limit but the one on pairs; clauses of no literal or of more than three, and the
//! layout of 2022; products in a constraint; and all other formats, targets, commands and keys.

#![forbid(unsafe_code)]

mod elimination;
mod form;
mod model;
mod output;
mod problem;
mod reading;
mod samples;

use model::Model;
use output::Output;
use std::{env, fs, process};

/// The line and the status of a run that ends early.
type Failure = (String, i32);

const MOST_PAIRS: usize = 1 << 24;

fn read(name: &str) -> Result<Vec<u8>, Failure> {
    fs::read(name).map_err(|_| (format!("cannot read {name}"), 3))
}

fn run(words: &[&str], keys: &[&str]) -> Result<(), Failure> {
    let key = |name: &str| keys.iter().find_map(|key| key.strip_prefix(name));
    let [command, format, "qubo", file, others @ ..] = words else {
        return Err(("usage".into(), 2));
    };
    let mut problem = reading::problem(format, &read(file)?);
    if key("slack=") == Some("pairs") {
        problem.replace_conflicts();
    }
    let pairs = problem.pairs();
    if pairs > MOST_PAIRS {
        return Err((format!("{file}: limit pairs {pairs}"), 6));
    }
    let model = Model::new(&problem, key("bound=").and_then(|bound| bound.parse().ok()));
    let mut out = Output::default();
    match (*command, others) {
        ("compile", []) => model.write(&mut out),
        ("size", []) => model.write_size(&mut out),
        ("evaluate", [name]) if *format == "qubo" => {
            samples::evaluate(&problem, &model, &read(name)?, &mut out)
        }
        ("solve", []) => {
            drop(problem);
            let order = match key("order=") {
                Some(name) => reading::order(&read(name)?),
                None => (0..model.form.fields.len() as u32).rev().collect(),
            };
            let state = elimination::least_state(&model.form, &order)?;
            model.write_optimum(&state, &mut out);
        }
        _ => return Err(("usage".into(), 2)),
    }
    out.flush();
    Ok(())
}

fn main() {
    let words: Vec<String> = env::args().skip(1).collect();
    let (keys, words): (Vec<&str>, Vec<&str>) =
        words.iter().map(String::as_str).partition(|word| word.contains('='));
    if let Err((line, status)) = run(&words, &keys) {
        eprintln!("{line}");
        process::exit(status);
    }
}
