//! Which terms are in use, and which are A- or B-colourable.

use crate::tables::{Literal, Tables, Term, A, B};

pub struct Colours {
    pub in_use: Vec<bool>,
    pub a: Vec<bool>,
    pub b: Vec<bool>,
}

/// The sides of the literals that count and, repeatedly, their arguments. Arguments are lower, so one pass downwards finds them all.
fn reached(tables: &Tables, counts: impl Fn(&Literal) -> bool) -> Vec<bool> {
    let mut marks = vec![false; tables.terms.len()];
    for literal in tables.literals.iter().filter(|l| counts(l)) {
        marks[literal.left] = true;
        marks[literal.right] = true;
    }
    for place in (0..marks.len()).rev() {
        if marks[place] {
            for &argument in tables.terms[place].arguments() {
                marks[argument as usize] = true;
            }
        }
    }
    marks
}

fn symbols(terms: &[Term], marks: &[bool]) -> Vec<u16> {
    let mut list: Vec<u16> = terms.iter().zip(marks).filter(|(_, &m)| m).map(|(t, _)| t.symbol).collect();
    list.sort_unstable();
    list.dedup();
    list
}

/// A term is colourable when its own symbol occurs and its arguments are colourable; these are lower.
fn colourable(terms: &[Term], symbols: &[u16]) -> Vec<bool> {
    let mut good: Vec<bool> = Vec::with_capacity(terms.len());
    for term in terms {
        let own = symbols.binary_search(&term.symbol).is_ok();
        good.push(own && term.arguments().iter().all(|&x| good[x as usize]));
    }
    good
}

pub fn colours(tables: &Tables) -> Colours {
    let side = |side: u8| {
        let marks = reached(tables, |l| l.side == side);
        colourable(&tables.terms, &symbols(&tables.terms, &marks))
    };
    Colours { in_use: reached(tables, |_| true), a: side(A), b: side(B) }
}
