//! The whole call: the answer, and what is written into the lent buffers.

use crate::clauses::{Clause, Conclusion, Pair, Reading};
use crate::closure::run;
use crate::graph::Graph;
use crate::tables::{read, Refusal};

/// What comes back beside the buffers, as in the header for C.
#[repr(C)]
#[derive(Clone, Copy, Default, PartialEq, Eq, Debug)]
pub struct Numbers {
    pub verdict: usize,
    pub number: usize,
    pub place: usize,
    pub disequality: usize,
    pub added: usize,
    pub records: usize,
}

pub const CONSISTENT: usize = 0;
pub const INCONSISTENT: usize = 1;
pub const REFUSED: usize = 2;

/// A call: the two tables, and the buffers for the partition, the added terms and the clauses.
pub type Call = fn(&[u8], &[u8], [&mut [u8]; 3]) -> Numbers;

/// The verdict with all that it would write, before room is judged.
pub enum Outcome {
    Refused(Refusal),
    Consistent { partition: Vec<u8> },
    Inconsistent { disequality: usize, added: Vec<u8>, clauses: Vec<u8> },
}

/// For each given term the lowest given term in use of its class; 65535 for one not in use.
fn partition(graph: &Graph) -> Vec<u8> {
    let mut lowest = vec![u16::MAX; graph.terms.len()];
    let mut bytes = Vec::with_capacity(2 * graph.given);
    for t in 0..graph.given {
        let mut class = u16::MAX;
        if graph.colours.in_use[t] {
            let slot = &mut lowest[graph.class[t] as usize];
            *slot = (*slot).min(t as u16);
            class = *slot;
        }
        bytes.extend(class.to_le_bytes());
    }
    bytes
}

fn clause_record(kind: u8, (left, right): Pair) -> [u8; 8] {
    let (l, r) = (left.to_le_bytes(), right.to_le_bytes());
    [kind, 0, l[0], l[1], r[0], r[1], 0, 0]
}

fn clause_bytes(clauses: &[Clause]) -> Vec<u8> {
    let mut bytes = Vec::new();
    for clause in clauses {
        for &premise in &clause.premises {
            bytes.extend(clause_record(1, premise));
        }
        bytes.extend(match clause.conclusion {
            Conclusion::Equal(pair) => clause_record(2, pair),
            Conclusion::Different(pair) => clause_record(3, pair),
            Conclusion::False => clause_record(4, (0, 0)),
        });
    }
    bytes
}

pub fn outcome(terms: &[u8], literals: &[u8]) -> Outcome {
    let tables = match read(terms, literals) {
        Ok(tables) => tables,
        Err(refusal) => return Outcome::Refused(refusal),
    };
    let graph = run(&tables);
    let critical = tables.literals.iter().position(|l| !l.equal && graph.joined(l.left, l.right));
    match critical {
        None => Outcome::Consistent { partition: partition(&graph) },
        Some(disequality) => Outcome::Inconsistent {
            disequality,
            added: graph.terms[graph.given..].iter().flat_map(|t| t.record()).collect(),
            clauses: clause_bytes(&Reading::new(&graph).summary(&tables.literals[disequality])),
        },
    }
}

fn refused(number: usize, place: usize) -> Numbers {
    Numbers { verdict: REFUSED, number, place, ..Numbers::default() }
}

/// Judges the room and writes.
pub fn write(outcome: &Outcome, buffers: [&mut [u8]; 3]) -> Numbers {
    let [lent_partition, lent_added, lent_clauses] = buffers;
    match outcome {
        Outcome::Refused(refusal) => refused(refusal.number, refusal.place),
        Outcome::Consistent { partition } if lent_partition.len() < partition.len() => refused(7, 0),
        Outcome::Inconsistent { added, .. } if lent_added.len() < added.len() => refused(7, 1),
        Outcome::Inconsistent { clauses, .. } if lent_clauses.len() < clauses.len() => refused(7, 2),
        Outcome::Consistent { partition } => {
            lent_partition[..partition.len()].copy_from_slice(partition);
            Numbers::default()
        }
        Outcome::Inconsistent { disequality, added, clauses } => {
            lent_added[..added.len()].copy_from_slice(added);
            lent_clauses[..clauses.len()].copy_from_slice(clauses);
            let (added, records) = (added.len() / 16, clauses.len() / 8);
            Numbers { verdict: INCONSISTENT, disequality: *disequality, added, records, ..Numbers::default() }
        }
    }
}

pub fn split(terms: &[u8], literals: &[u8], buffers: [&mut [u8]; 3]) -> Numbers {
    write(&outcome(terms, literals), buffers)
}
