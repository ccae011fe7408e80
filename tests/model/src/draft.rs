//! A pair of tables in the making: terms by symbol and arguments, each once, and literals between them.

use crate::random::Random;

#[derive(Clone, Default)]
pub struct Draft {
    pub terms: Vec<(u16, Vec<usize>)>,
    pub literals: Vec<(u8, u8, usize, usize)>,
}

impl Draft {
    /// The number of this term: that of the equal one, if there is one.
    pub fn term(&mut self, symbol: u16, arguments: &[usize]) -> usize {
        let same = self.terms.iter().position(|(s, a)| *s == symbol && a == arguments);
        same.unwrap_or_else(|| {
            self.terms.push((symbol, arguments.to_vec()));
            self.terms.len() - 1
        })
    }

    pub fn equal(&mut self, side: u8, left: usize, right: usize) {
        self.literals.push((side, 1, left, right));
    }

    pub fn different(&mut self, side: u8, left: usize, right: usize) {
        self.literals.push((side, 2, left, right));
    }

    /// The same terms under other numbers, arguments still below: always a next one whose arguments have stood.
    pub fn renumbered(&self, random: &mut Random) -> Draft {
        let count = self.terms.len();
        let mut waits: Vec<usize> = self.terms.iter().map(|(_, a)| a.len()).collect();
        let mut users: Vec<Vec<usize>> = vec![Vec::new(); count];
        for (place, (_, arguments)) in self.terms.iter().enumerate() {
            arguments.iter().for_each(|&x| users[x].push(place));
        }
        let mut ready: Vec<usize> = (0..count).filter(|&t| waits[t] == 0).collect();
        let mut number = vec![0; count];
        let mut terms = Vec::with_capacity(count);
        while !ready.is_empty() {
            let at = random.below(ready.len());
            let old = ready.swap_remove(at);
            number[old] = terms.len();
            let (symbol, arguments) = &self.terms[old];
            terms.push((*symbol, arguments.iter().map(|&x| number[x]).collect()));
            for &user in &users[old] {
                waits[user] -= 1;
                if waits[user] == 0 {
                    ready.push(user);
                }
            }
        }
        let literals = self.literals.iter().map(|&(s, k, l, r)| (s, k, number[l], number[r])).collect();
        Draft { terms, literals }
    }

    pub fn term_bytes(&self) -> Vec<u8> {
        let mut bytes = Vec::with_capacity(16 * self.terms.len());
        for (symbol, arguments) in &self.terms {
            let mut record = [0; 16];
            record[..2].copy_from_slice(&symbol.to_le_bytes());
            record[2] = arguments.len() as u8;
            for (i, &x) in arguments.iter().enumerate() {
                record[4 + 2 * i..6 + 2 * i].copy_from_slice(&(x as u16).to_le_bytes());
            }
            bytes.extend(record);
        }
        bytes
    }

    pub fn literal_bytes(&self) -> Vec<u8> {
        let mut bytes = Vec::with_capacity(8 * self.literals.len());
        for &(side, kind, left, right) in &self.literals {
            let (l, r) = ((left as u16).to_le_bytes(), (right as u16).to_le_bytes());
            bytes.extend([side, kind, l[0], l[1], r[0], r[1], 0, 0]);
        }
        bytes
    }
}
