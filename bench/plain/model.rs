//! The model of a problem, and its texts.

use crate::form::Form;
use crate::output::Output;
use crate::problem::Problem;
use crate::samples::energies;

pub struct Model {
    pub form: Form,
    pub variables: usize,
    pub offset: i128,
    threshold: i128,
}

impl Model {
    /// The model in which no finite cost is above a bound, where there is one.
    pub fn new(problem: &Problem, bound: Option<i128>) -> Model {
        let (spread, greatest) = (problem.spread(), problem.greatest_cost());
        let kept = bound.unwrap_or(greatest);
        let least = greatest - spread;
        let penalty = (spread + 1).min(kept - least + 1).max(1);
        let form = Form::new(problem, penalty);
        let offset = -form.constant;
        Model { offset, threshold: greatest.min(kept) + offset, variables: problem.variables, form }
    }

    /// Writes the rows of the model.
    pub fn write(&self, out: &mut Output) {
        let nodes = self.form.fields.len();
        out.text(b"c scale 1\n");
        out.row("c offset ", self.offset);
        out.row("c threshold ", self.threshold);
        out.text(b"c unit 1\n");
        out.row("c variables ", self.variables as i128);
        out.row(&format!("p qubo 0 {nodes} {nodes} "), self.form.couplers() as i128);
        for (node, &field) in self.form.fields.iter().enumerate() {
            out.row(&format!("{node} {node} "), field);
        }
        for node in 0..nodes {
            let first = format!("{node} ");
            for (second, weight) in self.form.row(node) {
                out.text(first.as_bytes());
                out.number(second.into());
                out.row(" ", weight);
            }
        }
    }

    /// Writes how large the model is.
    pub fn write_size(&self, out: &mut Output) {
        let sizes = || self.form.all_weights().map(i128::abs).filter(|&size| size != 0);
        let rows = [
            ("nodes ", self.form.fields.len() as i128),
            ("couplers ", self.form.couplers() as i128),
            ("scale ", 1),
            ("offset ", self.offset),
            ("threshold ", self.threshold),
            ("unit ", 1),
            ("variables ", self.variables as i128),
            ("least ", sizes().min().unwrap_or(0)),
            ("greatest ", sizes().max().unwrap_or(0)),
        ];
        for (word, number) in rows {
            out.row(word, number);
        }
    }

    /// Writes a state of least energy, and what it says of the problem.
    pub fn write_optimum(&self, state: &[bool], out: &mut Output) {
        let words: Vec<u64> = state.iter().map(|&bit| bit.into()).collect();
        let energy = energies(&self.form, &words)[0];
        out.bits("state ", state);
        out.row("energy ", energy);
        if energy > self.threshold {
            out.text(b"infeasible\n");
        } else {
            out.bits("assignment ", &state[..self.variables]);
            out.row("optimum ", energy - self.offset);
        }
    }
}
