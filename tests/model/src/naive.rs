//! A plain congruence closure over bytes, for judging answers. It shares nothing with the model.

#[derive(Clone)]
pub struct Classes {
    terms: Vec<(u16, Vec<usize>)>,
    class: Vec<usize>,
}

pub fn two(bytes: &[u8], at: usize) -> usize {
    bytes[at] as usize + 256 * bytes[at + 1] as usize
}

impl Classes {
    /// Every term alone. The records are given ones and added ones, in one row.
    pub fn new(records: &[u8]) -> Classes {
        let term = |r: &[u8]| (two(r, 0) as u16, (0..r[2] as usize).map(|i| two(r, 4 + 2 * i)).collect());
        let terms: Vec<(u16, Vec<usize>)> = records.chunks(16).map(term).collect();
        let class = (0..terms.len()).collect();
        Classes { terms, class }
    }

    pub fn same(&self, x: usize, y: usize) -> bool {
        self.class[x] == self.class[y]
    }

    pub fn merge(&mut self, x: usize, y: usize) -> bool {
        let (old, new) = (self.class[x], self.class[y]);
        self.class.iter_mut().filter(|c| **c == old).for_each(|c| *c = new);
        old != new
    }

    /// Merges terms of one symbol over equal arguments until nothing changes.
    pub fn close(&mut self) {
        let mut changed = true;
        while changed {
            changed = false;
            let mut rows: Vec<(u16, Vec<usize>, usize)> = Vec::with_capacity(self.terms.len());
            for (place, (symbol, arguments)) in self.terms.iter().enumerate() {
                rows.push((*symbol, arguments.iter().map(|&x| self.class[x]).collect(), place));
            }
            rows.sort();
            for pair in rows.windows(2) {
                if pair[0].0 == pair[1].0 && pair[0].1 == pair[1].1 {
                    changed |= self.merge(pair[0].2, pair[1].2);
                }
            }
        }
    }

    pub fn symbol(&self, term: usize) -> u16 {
        self.terms[term].0
    }

    pub fn arguments(&self, term: usize) -> &[usize] {
        &self.terms[term].1
    }

    pub fn count(&self) -> usize {
        self.terms.len()
    }
}
