//! Tables without any plan: few symbols, any arguments, any literals.

use crate::draft::Draft;
use crate::random::Random;

pub fn soup(terms: usize, symbols: usize, literals: usize, random: &mut Random) -> Draft {
    let arities: Vec<usize> = (0..symbols).map(|_| random.pick(&[0, 0, 1, 1, 2, 2, 3, 4])).collect();
    let mut draft = Draft::default();
    for _ in 0..8 * terms {
        let symbol = random.below(symbols);
        if draft.terms.len() >= terms {
            break;
        }
        if arities[symbol] > 0 && draft.terms.is_empty() {
            draft.term(60000, &[]);
        }
        let row: Vec<usize> = (0..arities[symbol]).map(|_| random.below(draft.terms.len())).collect();
        draft.term(symbol as u16, &row);
    }
    let share = random.pick(&[10, 30, 60]);
    for _ in 0..if draft.terms.is_empty() { 0 } else { literals } {
        let kind = if random.percent(share) { 2 } else { 1 };
        let (left, right) = (random.below(draft.terms.len()), random.below(draft.terms.len()));
        draft.literals.push((random.pick(&[1, 2]), kind, left, right));
    }
    draft
}
