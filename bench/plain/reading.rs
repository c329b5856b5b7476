//! Texts that have no faults.

use crate::problem::{Constraint, Literal, Problem, product};

/// A place in a text, whose comments begin with a byte at the front of a line.
struct Cursor<'a> {
    text: &'a [u8],
    at: usize,
    comment: u8,
    fresh: bool,
    variables: usize,
}

impl<'a> Cursor<'a> {
    fn new(text: &'a [u8], comment: u8) -> Cursor<'a> {
        Cursor { text, at: 0, comment, fresh: true, variables: 0 }
    }

    fn byte(&self) -> Option<u8> {
        self.text.get(self.at).copied()
    }

    /// The next byte that is no blank and in no comment.
    fn peek(&mut self) -> Option<u8> {
        loop {
            match self.byte()? {
                b' ' | b'\t' | b'\r' => self.at += 1,
                b'\n' => {
                    self.at += 1;
                    self.fresh = true;
                }
                byte if self.fresh && byte == self.comment => {
                    let rest = &self.text[self.at..];
                    self.at += rest.iter().position(|&byte| byte == b'\n').unwrap_or(rest.len());
                }
                byte => {
                    self.fresh = false;
                    return Some(byte);
                }
            }
        }
    }

    fn skip_words(&mut self, count: usize) {
        for _ in 0..count {
            self.peek();
            while self.byte().is_some_and(|byte| !byte.is_ascii_whitespace()) {
                self.at += 1;
            }
        }
    }

    /// Whether something more stands on the line.
    fn line_goes_on(&mut self) -> bool {
        while matches!(self.byte(), Some(b' ' | b'\t' | b'\r')) {
            self.at += 1;
        }
        !matches!(self.byte(), None | Some(b'\n'))
    }

    fn digits(&mut self) -> u64 {
        let mut value = 0;
        while let Some(digit @ b'0'..=b'9') = self.byte() {
            value = value * 10 + u64::from(digit - b'0');
            self.at += 1;
        }
        value
    }

    /// Whether a number is below 0, and its size.
    fn signed(&mut self) -> (bool, u64) {
        let sign = self.peek();
        if matches!(sign, Some(b'-' | b'+')) {
            self.at += 1;
        }
        let size = self.digits();
        if self.byte() == Some(b'.') {
            self.at += 1;
            self.digits();
        }
        (sign == Some(b'-'), size)
    }

    fn number(&mut self) -> i128 {
        let (negative, size) = self.signed();
        if negative { -i128::from(size) } else { i128::from(size) }
    }

    fn size(&mut self) -> usize {
        self.signed().1 as usize
    }

    /// The literal of a variable that is counted from 1.
    fn literal(&mut self, number: u64, negated: bool) -> Literal {
        self.variables = self.variables.max(number as usize);
        2 * (number as u32 - 1) + u32::from(negated)
    }

    /// A literal of an OPB file, if one stands here.
    fn named_literal(&mut self) -> Option<Literal> {
        let negated = self.peek() == Some(b'~');
        if !negated && self.byte() != Some(b'x') {
            return None;
        }
        self.at += 1 + usize::from(negated);
        let number = self.digits();
        Some(self.literal(number, negated))
    }
}

pub fn problem(format: &str, text: &[u8]) -> Problem {
    match format {
        "wcnf" => wcnf(text),
        "opb" => opb(text),
        _ => qubo(text),
    }
}

fn wcnf(text: &[u8]) -> Problem {
    let mut cursor = Cursor::new(text, b'c');
    let mut problem = Problem::default();
    cursor.skip_words(2);
    cursor.variables = cursor.size();
    cursor.size();
    let top = if cursor.line_goes_on() { cursor.number() } else { i128::MAX };
    let mut complements = Vec::with_capacity(3);
    while cursor.peek().is_some() {
        let weight = cursor.number();
        complements.clear();
        while let (negated, number @ 1..) = cursor.signed() {
            complements.push(cursor.literal(number, !negated));
        }
        if weight < top {
            problem.add_soft(weight, &mut complements);
        } else {
            problem.hard.extend(product(&mut complements));
        }
    }
    problem.variables = cursor.variables;
    problem
}

fn opb(text: &[u8]) -> Problem {
    let mut cursor = Cursor::new(text, b'*');
    let mut problem = Problem::default();
    if cursor.peek() == Some(b'm') {
        cursor.at += "min:".len();
        while cursor.peek() != Some(b';') {
            let weight = cursor.number();
            let mut literals: Vec<Literal> =
                std::iter::from_fn(|| cursor.named_literal()).collect();
            problem.add_soft(weight, &mut literals);
        }
        cursor.at += 1;
    }
    while cursor.peek().is_some() {
        problem.constraints.push(constraint(&mut cursor));
    }
    problem.variables = cursor.variables;
    problem
}

fn constraint(cursor: &mut Cursor<'_>) -> Constraint {
    let mut made = Constraint::default();
    while !matches!(cursor.peek(), None | Some(b'<' | b'=' | b'>')) {
        let coefficient = cursor.number();
        if let (Some(literal), true) = (cursor.named_literal(), coefficient != 0) {
            made.literals.push(literal);
            made.coefficients.push(coefficient);
        }
    }
    let relation = cursor.byte();
    cursor.at += if relation == Some(b'=') { 1 } else { 2 };
    made.exact = relation == Some(b'=');
    made.bound = cursor.number();
    if relation == Some(b'<') {
        made.bound = -made.bound;
        made.coefficients.iter_mut().for_each(|coefficient| *coefficient = -*coefficient);
    }
    cursor.peek();
    cursor.at += 1;
    made
}

fn qubo(text: &[u8]) -> Problem {
    let mut cursor = Cursor::new(text, b'c');
    let mut problem = Problem::default();
    cursor.skip_words(3);
    problem.variables = cursor.size();
    let entries = cursor.size() + cursor.size();
    problem.soft.reserve(entries);
    for _ in 0..entries {
        let (first, second) = (cursor.size() as u32, cursor.size() as u32);
        problem.add_soft(cursor.number(), &mut [2 * first, 2 * second]);
    }
    problem
}

/// The nodes of an order.
pub fn order(text: &[u8]) -> Vec<u32> {
    let mut cursor = Cursor::new(text, b'c');
    let mut nodes = Vec::new();
    while cursor.peek().is_some() {
        nodes.push(cursor.size() as u32);
    }
    nodes
}
