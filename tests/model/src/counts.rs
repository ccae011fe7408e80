//! What a run has met, and what it must meet.

use crate::inputs::Tables;
use crate::judge::{Numbers, CONSISTENT, REFUSED};

/// Each kind of table, answer or buffer that can occur. A run that never meets one has failed.
pub const KINDS: [&str; 36] = [
    "refused 1 at 0",
    "refused 1 at 1",
    "refused 2 at 0",
    "refused 2 at 1",
    "refused 3",
    "refused 4",
    "refused 5",
    "refused 6",
    "refused 7 at 0",
    "refused 7 at 1",
    "refused 7 at 2",
    "consistent",
    "consistent with idle terms",
    "inconsistent, disequality in A",
    "inconsistent, disequality in B",
    "inconsistent by equal sides",
    "with added terms",
    "with 100 added terms or more",
    "an added term over an added term",
    "an added term that repeats an idle one",
    "no clause",
    "with premises",
    "a clause of 5 premises or more",
    "5 clauses or more",
    "last clause of kind 2",
    "last clause of kind 3",
    "last clause of kind 4",
    "more than 4096 clause records",
    "256 terms",
    "256 terms, inconsistent",
    "no term",
    "no literal",
    "1024 literals",
    "buffers of exact length",
    "an output buffer of length 0",
    "table longer than 60000 bytes",
];

pub struct Counts {
    pub tables: u64,
    met: [u64; KINDS.len()],
    pub most_added: usize,
    pub most_records: usize,
}

impl Counts {
    pub fn new() -> Counts {
        Counts { tables: 0, met: [0; KINDS.len()], most_added: 0, most_records: 0 }
    }

    fn meet(&mut self, kind: &str) {
        let place = KINDS.iter().position(|k| *k == kind);
        self.met[place.expect("a kind that is listed")] += 1;
    }

    fn meet_if(&mut self, met: bool, kind: &str) {
        if met {
            self.meet(kind);
        }
    }

    fn refused(&mut self, numbers: &Numbers) {
        match numbers.number {
            1 | 2 | 7 => self.meet(&format!("refused {} at {}", numbers.number, numbers.place)),
            _ => self.meet(&format!("refused {}", numbers.number)),
        }
    }

    fn consistent(&mut self, terms: usize, buffers: &[&mut [u8]; 3]) {
        self.meet("consistent");
        let idle = buffers[0][..2 * terms].chunks(2).any(|c| c == [255, 255]);
        self.meet_if(idle, "consistent with idle terms");
        self.meet_if(terms > 0 && buffers[0].len() == 2 * terms, "buffers of exact length");
    }

    fn inconsistent(&mut self, tables: &Tables, numbers: &Numbers, buffers: &[&mut [u8]; 3]) {
        let record = &tables.literals[8 * numbers.disequality..][..8];
        let added = &buffers[1][..16 * numbers.added];
        let clauses = &buffers[2][..8 * numbers.records];
        self.meet(if record[0] == 1 { "inconsistent, disequality in A" } else { "inconsistent, disequality in B" });
        self.meet_if(record[2..4] == record[4..6], "inconsistent by equal sides");
        self.meet_if(tables.terms.len() == 4096, "256 terms, inconsistent");
        self.meet_if(!added.is_empty() && buffers[1].len() == added.len() && buffers[2].len() == clauses.len(), "buffers of exact length");
        self.most_added = self.most_added.max(numbers.added);
        self.most_records = self.most_records.max(numbers.records);
        self.added(&tables.terms, added);
        self.clauses(clauses);
    }

    fn added(&mut self, terms: &[u8], added: &[u8]) {
        let given = (terms.len() / 16) as u16;
        let over = |r: &[u8]| r[4..12].chunks(2).any(|x| u16::from_le_bytes([x[0], x[1]]) >= given);
        self.meet_if(!added.is_empty(), "with added terms");
        self.meet_if(added.len() >= 1600, "with 100 added terms or more");
        self.meet_if(added.chunks(16).any(over), "an added term over an added term");
        self.meet_if(added.chunks(16).any(|r| terms.chunks(16).any(|t| t == r)), "an added term that repeats an idle one");
    }

    fn clauses(&mut self, clauses: &[u8]) {
        let kinds: Vec<u8> = clauses.chunks(8).map(|r| r[0]).collect();
        let ends = kinds.iter().filter(|&&k| k != 1).count();
        self.meet_if(kinds.contains(&1), "with premises");
        self.meet_if(kinds.windows(5).any(|w| w == [1; 5]), "a clause of 5 premises or more");
        self.meet_if(ends >= 5, "5 clauses or more");
        self.meet_if(kinds.len() > 4096, "more than 4096 clause records");
        match kinds.last() {
            None => self.meet("no clause"),
            Some(kind) => self.meet(&format!("last clause of kind {}", kind)),
        }
    }

    pub fn count(&mut self, tables: &Tables, numbers: &Numbers, buffers: [&mut [u8]; 3]) {
        self.tables += 1;
        self.meet_if(tables.terms.len() == 4096, "256 terms");
        self.meet_if(tables.terms.is_empty(), "no term");
        self.meet_if(tables.literals.is_empty(), "no literal");
        self.meet_if(tables.literals.len() == 8192, "1024 literals");
        self.meet_if(buffers.iter().any(|b| b.is_empty()), "an output buffer of length 0");
        self.meet_if(tables.terms.len() > 60000 || tables.literals.len() > 60000, "table longer than 60000 bytes");
        match numbers.verdict {
            REFUSED => self.refused(numbers),
            CONSISTENT => self.consistent(tables.terms.len() / 16, &buffers),
            _ => self.inconsistent(tables, numbers, &buffers),
        }
    }

    /// Prints the closing count; whether every kind was met.
    pub fn close(&self) -> bool {
        println!("\n{:>9} tables, among them:", self.tables);
        for (kind, met) in KINDS.iter().zip(self.met) {
            println!("{:>9} {}{}", met, kind, if met == 0 { "  NEVER MET" } else { "" });
        }
        println!("{:>9} most added terms, {} most clause records", self.most_added, self.most_records);
        self.met.iter().all(|&met| met > 0)
    }
}
