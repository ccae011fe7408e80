//! The search for the first pair of given terms in use that are congruent and not joined.

use crate::graph::Graph;

/// Candidates are the terms in use that have arguments: two constants of one symbol are one record.
pub struct Search {
    candidates: Vec<usize>,
    slots: Vec<(u32, u16)>,
    round: u32,
}

type Signature = (u16, [u16; 4]);

fn signature(graph: &Graph, t: usize) -> Signature {
    let term = &graph.terms[t];
    let mut classes = [0; 4];
    for (class, &argument) in classes.iter_mut().zip(term.arguments()) {
        *class = graph.class[argument as usize];
    }
    (term.symbol, classes)
}

fn hash(signature: &Signature) -> usize {
    let (symbol, row) = signature;
    let mut sum = *symbol as u64;
    for &class in row {
        sum = (sum.rotate_left(17) ^ class as u64).wrapping_mul(0x9E37_79B9_7F4A_7C15);
    }
    (sum >> 40) as usize
}

impl Search {
    pub fn new(graph: &Graph) -> Search {
        let candidates: Vec<usize> = (0..graph.given).filter(|&t| graph.colours.in_use[t] && graph.terms[t].arity > 0).collect();
        let slots = vec![(0, 0); (2 * candidates.len()).next_power_of_two()];
        Search { candidates, slots, round: 0 }
    }

    /// The lowest term of this round with the signature of t: t itself where there was none before.
    fn lowest_like(&mut self, graph: &Graph, t: usize) -> usize {
        let own = signature(graph, t);
        let mut at = hash(&own) & (self.slots.len() - 1);
        loop {
            let (round, place) = self.slots[at];
            if round != self.round {
                self.slots[at] = (self.round, t as u16);
                return t;
            }
            if signature(graph, place as usize) == own {
                return place as usize;
            }
            at = (at + 1) & (self.slots.len() - 1);
        }
    }

    /// Smallest s, then smallest t. Of the terms of one signature the lowest is s, if any is not joined to it: otherwise all are joined.
    pub fn first_pair(&mut self, graph: &Graph) -> Option<(usize, usize)> {
        self.round += 1;
        let mut first: Option<(usize, usize)> = None;
        for i in 0..self.candidates.len() {
            let t = self.candidates[i];
            let s = self.lowest_like(graph, t);
            if !graph.joined(s, t) && first.map_or(true, |(lowest, _)| s < lowest) {
                first = Some((s, t));
            }
        }
        first
    }
}
