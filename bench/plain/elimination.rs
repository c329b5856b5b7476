//! A state of least energy, by elimination in an order: after Bertelè and Brioschi.
//!
//! Nodes are named by their rank, which is 0 for the node that goes last. The node of the greatest
//! rank that is left goes next. All that speaks of it becomes a table over its neighbours, which is
//! a message to the greatest of them.

use crate::Failure;
use crate::form::Form;
use std::iter::zip;
use std::ops::AddAssign;

const MOST_NEIGHBOURS: usize = 16;

/// A number of a table. Those of 64 bits serve where no sum is too large.
trait Number: Copy + Ord + Default + AddAssign {
    fn of(weight: i128) -> Self;
}

impl Number for i64 {
    fn of(weight: i128) -> i64 {
        weight as i64
    }
}

impl Number for i128 {
    fn of(weight: i128) -> i128 {
        weight
    }
}

/// The weights of nodes by rank, and of each the couplers to those of lower rank.
struct Ranked {
    fields: Vec<i128>,
    starts: Vec<usize>,
    couplers: Vec<(u32, i128)>,
}

/// The least energies of what has gone, for all bits of a scope: ranks that descend. Bit k of an
/// index is that of scope[k].
#[derive(Default)]
struct Message<N> {
    scope: Vec<u32>,
    table: Vec<N>,
    next: Option<Box<Message<N>>>,
}

/// The scope of each node at its turn, and its better bit for all bits of the scope, 64 in a word.
#[derive(Default)]
struct Choices {
    scopes: Vec<u32>,
    bits: Vec<u64>,
    starts: Vec<(usize, usize)>,
}

/// The first of the states of least energy, when nodes are compared from the last of the order to
/// the first.
pub fn least_state(form: &Form, order: &[u32]) -> Result<Vec<bool>, Failure> {
    let ranked = Ranked::new(form, order);
    let total: u128 = form.all_weights().map(i128::unsigned_abs).sum();
    let node = |rank: usize| order[order.len() - 1 - rank];
    let choices = match total < 1 << 62 {
        true => eliminate::<i64>(&ranked),
        false => eliminate::<i128>(&ranked),
    };
    let bits = choices.map_err(|(rank, width)| {
        (format!("too wide: node {} has {width} neighbours", node(rank)), 11)
    })?;
    let mut state = vec![false; order.len()];
    for (rank, bit) in bits.least().into_iter().enumerate() {
        state[node(rank) as usize] = bit;
    }
    Ok(state)
}

impl Ranked {
    fn new(form: &Form, order: &[u32]) -> Ranked {
        let count = order.len();
        let mut rank = vec![0; count];
        for (i, &node) in order.iter().enumerate() {
            rank[node as usize] = (count - 1 - i) as u32;
        }
        let mut starts = vec![0; count + 1];
        let pairs = || (0..count).flat_map(|i| form.row(i).map(move |(j, weight)| (i, j, weight)));
        let ranks = |i: usize, j: u32| {
            let (first, second) = (rank[i], rank[j as usize]);
            (first.max(second), first.min(second))
        };
        for (i, j, _) in pairs() {
            starts[ranks(i, j).0 as usize + 1] += 1;
        }
        for i in 0..count {
            starts[i + 1] += starts[i];
        }
        let mut next = starts.clone();
        let mut couplers = vec![(0, 0); form.couplers()];
        for (i, j, weight) in pairs() {
            let (greater, lower) = ranks(i, j);
            couplers[next[greater as usize]] = (lower, weight);
            next[greater as usize] += 1;
        }
        let fields = order.iter().rev().map(|&node| form.fields[node as usize]).collect();
        Ranked { fields, starts, couplers }
    }

    fn couplers_of(&self, node: usize) -> &[(u32, i128)] {
        &self.couplers[self.starts[node]..self.starts[node + 1]]
    }
}

/// Eliminates all nodes, or names one that has too many neighbours, and their number.
fn eliminate<N: Number>(ranked: &Ranked) -> Result<Choices, (usize, usize)> {
    let count = ranked.fields.len();
    let mut inbox: Vec<Option<Box<Message<N>>>> = (0..count).map(|_| None).collect();
    let mut spare = Vec::new();
    let mut ones = Vec::new();
    let mut choices = Choices::default();
    for node in (0..count).rev() {
        let couplers = ranked.couplers_of(node);
        let mut sent: Box<Message<N>> = spare.pop().unwrap_or_default();
        find_scope(&mut sent.scope, couplers, inbox[node].as_deref());
        if sent.scope.len() > MOST_NEIGHBOURS {
            return Err((node, sent.scope.len()));
        }
        fill(&mut sent, &mut ones, ranked.fields[node], couplers);
        let mut received = inbox[node].take();
        while let Some(mut message) = received {
            let has: Vec<bool> =
                sent.scope.iter().map(|other| message.scope[1..].contains(other)).collect();
            add(&mut sent.table, &mut ones, &message.table, &has);
            received = message.next.take();
            spare.push(message);
        }
        choices.push(&mut sent, &ones);
        if let Some(&target) = sent.scope.first() {
            let place = &mut inbox[target as usize];
            sent.next = place.take();
            *place = Some(sent);
        }
    }
    Ok(choices)
}

/// All that is left of a node's neighbours.
fn find_scope<N>(scope: &mut Vec<u32>, couplers: &[(u32, i128)], inbox: Option<&Message<N>>) {
    scope.clear();
    scope.extend(couplers.iter().map(|&(other, _)| other));
    let mut received = inbox;
    while let Some(message) = received {
        scope.extend_from_slice(&message.scope[1..]);
        received = message.next.as_deref();
    }
    scope.sort_unstable_by(|one, other| other.cmp(one));
    scope.dedup();
}

/// Fills the tables of a node with what its own weights say: with the bit 0 nothing.
fn fill<N: Number>(
    sent: &mut Message<N>,
    ones: &mut Vec<N>,
    field: i128,
    couplers: &[(u32, i128)],
) {
    sent.table.clear();
    sent.table.resize(1 << sent.scope.len(), N::default());
    ones.clear();
    ones.push(N::of(field));
    for &node in &sent.scope {
        let weight = couplers.iter().find(|&&(other, _)| other == node);
        let weight = N::of(weight.map_or(0, |&(_, weight)| weight));
        let half = ones.len();
        ones.extend_from_within(..);
        ones[half..].iter_mut().for_each(|number| *number += weight);
    }
}

/// Adds a message to the tables of the node that it is to, whose bit is the lowest of the message's
/// index. The message knows of those other bits that `has` says.
fn add<N: Number>(zeros: &mut [N], ones: &mut [N], message: &[N], has: &[bool]) {
    let Some((&last, others)) = has.split_last() else {
        zeros[0] += message[0];
        ones[0] += message[1];
        return;
    };
    if has.iter().all(|&has| has) {
        for ((zero, one), pair) in zip(zip(zeros, ones), message.chunks_exact(2)) {
            *zero += pair[0];
            *one += pair[1];
        }
    } else if let [zero_number, one_number] = *message {
        zeros.iter_mut().for_each(|zero| *zero += zero_number);
        ones.iter_mut().for_each(|one| *one += one_number);
    } else {
        let half = zeros.len() / 2;
        let (low, high) = match last {
            true => message.split_at(message.len() / 2),
            false => (message, message),
        };
        add(&mut zeros[..half], &mut ones[..half], low, others);
        add(&mut zeros[half..], &mut ones[half..], high, others);
    }
}

impl Choices {
    /// Takes the better bit of the next node, and leaves the lesser energies in its table.
    fn push<N: Number>(&mut self, sent: &mut Message<N>, ones: &[N]) {
        self.starts.push((self.scopes.len(), self.bits.len()));
        self.scopes.extend_from_slice(&sent.scope);
        for (zeros, ones) in zip(sent.table.chunks_mut(64), ones.chunks(64)) {
            let mut word = 0;
            for (k, (zero, &one)) in zip(zeros, ones).enumerate() {
                word |= u64::from(one < *zero) << k;
                *zero = one.min(*zero);
            }
            self.bits.push(word);
        }
    }

    /// The bits of all nodes, by rank.
    fn least(&self) -> Vec<bool> {
        let mut bits = vec![false; self.starts.len()];
        let mut end = self.scopes.len();
        for (rank, &(scope, words)) in self.starts.iter().rev().enumerate() {
            let others = self.scopes[scope..end].iter().enumerate();
            let index: usize =
                others.map(|(k, &other)| usize::from(bits[other as usize]) << k).sum();
            bits[rank] = self.bits[words + index / 64] >> (index % 64) & 1 == 1;
            end = scope;
        }
        bits
    }
}
