//! Many states of one model, 64 at a time: bit k of a word is that of the state k.

use crate::form::Form;
use crate::model::Model;
use crate::output::Output;
use crate::problem::{Literal, Problem};

const AT_ONCE: usize = 64;

type Sums = [i128; AT_ONCE];

/// Adds a weight to the sums of the states of a mask.
fn add(sums: &mut Sums, mut mask: u64, weight: i128) {
    while mask != 0 {
        sums[mask.trailing_zeros() as usize] += weight;
        mask &= mask - 1;
    }
}

/// The states under which a literal is true.
fn mask(literal: Literal, words: &[u64]) -> u64 {
    let word = words[literal as usize >> 1];
    if literal & 1 == 1 { !word } else { word }
}

/// The energies of the states.
pub fn energies(form: &Form, words: &[u64]) -> Sums {
    let mut sums = [0; AT_ONCE];
    for (node, &word) in words.iter().enumerate().filter(|(_, &word)| word != 0) {
        add(&mut sums, word, form.fields[node]);
        for (second, weight) in form.row(node) {
            add(&mut sums, word & words[second as usize], weight);
        }
    }
    sums
}

/// The costs of the states, for a problem in which each state is allowed.
fn costs(problem: &Problem, words: &[u64]) -> Sums {
    let mut sums = [problem.constant; AT_ONCE];
    for (product, weight) in &problem.soft {
        let all = product.iter().fold(!0, |all, &literal| all & mask(literal, words));
        add(&mut sums, all, *weight);
    }
    sums
}

/// What is told of a state. A better one is less.
#[derive(PartialEq, Eq, PartialOrd, Ord)]
struct Sample {
    cost: i128,
    energy: i128,
    line: usize,
}

/// The states of a text, each with the number of its line.
fn states(text: &[u8], nodes: usize) -> Vec<(usize, &[u8])> {
    let is_bit = |byte: &u8| matches!(byte, b'0' | b'1' | b'-' | b'+');
    let lines = text.split(|&byte| byte == b'\n').map(<[u8]>::trim_ascii);
    let all = (1..).zip(lines);
    all.filter(|(_, line)| line.len() == nodes && line.iter().all(is_bit)).collect()
}

/// Writes the cost and the energy of each state, and the best one.
pub fn evaluate(problem: &Problem, model: &Model, text: &[u8], out: &mut Output) {
    let nodes = model.form.fields.len();
    let is_one = |byte: &u8| matches!(byte, b'1' | b'+');
    let mut words = vec![0; nodes];
    let mut best: Option<(Sample, &[u8])> = None;
    for block in states(text, nodes).chunks(AT_ONCE) {
        words.fill(0);
        for (k, (_, state)) in block.iter().enumerate() {
            for (word, byte) in words.iter_mut().zip(*state) {
                *word |= u64::from(is_one(byte)) << k;
            }
        }
        let (costs, energies) = (costs(problem, &words), energies(&model.form, &words));
        for (k, &(line, state)) in block.iter().enumerate() {
            let sample = Sample { cost: costs[k], energy: energies[k], line };
            out.row(&format!("sample {line} cost {} energy ", sample.cost), sample.energy);
            if best.as_ref().is_none_or(|(best, _)| sample < *best) {
                best = Some((sample, state));
            }
        }
    }
    if let Some((sample, state)) = best {
        out.row("best ", sample.line as i128);
        let bits: Vec<bool> = state.iter().map(is_one).collect();
        out.bits("assignment ", &bits[..model.variables]);
        out.row("cost ", sample.cost);
        out.row("energy ", sample.energy);
    }
}
