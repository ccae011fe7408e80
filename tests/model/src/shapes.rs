//! Tables of known shapes: towers, many derived steps, many middle terms, many clauses, and terms without any plan.

use crate::draft::Draft;
use crate::tables::{A, B};

/// Levels of f(x, .., x) over k and over m. Sixty of arity 2 are 01's own case.
pub fn towers(levels: usize, arity: usize, equality: u8, disequality: u8) -> Draft {
    let mut draft = Draft::default();
    let mut tops = [draft.term(10, &[]), draft.term(11, &[])];
    for _ in 0..levels {
        tops = [draft.term(20, &vec![tops[0]; arity]), draft.term(20, &vec![tops[1]; arity])];
    }
    draft.equal(equality, 0, 1);
    draft.different(disequality, tops[0], tops[1]);
    draft
}

/// k = f(k) under f(f(k)) and so on: one basic step, and every other step is derived.
pub fn unary_chain(terms: usize, equality: u8, disequality: u8) -> Draft {
    let mut draft = Draft::default();
    let mut top = draft.term(10, &[]);
    for _ in 1..terms {
        top = draft.term(20, &[top]);
    }
    draft.equal(equality, 0, 1);
    draft.different(disequality, 0, top);
    draft
}

/// g(a,a,a,a) in A beside g over b and shared constants in B. From a one edge leads to each shared constant, so every pair has a middle term
/// of its own.
pub fn middles(terms: usize, shared: usize) -> Draft {
    let mut draft = Draft::default();
    let a = draft.term(1, &[]);
    let b = draft.term(2, &[]);
    let k: Vec<usize> = (0..shared).map(|i| draft.term(10 + i as u16, &[])).collect();
    for &x in &k {
        draft.equal(A, a, x);
    }
    draft.equal(B, b, k[0]);
    let s = draft.term(20, &[a; 4]);
    draft.equal(A, s, s);
    let pool: Vec<usize> = std::iter::once(b).chain(k[1..].iter().copied()).collect();
    for code in 0..shared.pow(4) {
        let row: Vec<usize> = (0..4).map(|i| pool[code / shared.pow(i) % shared]).collect();
        if row.contains(&b) && draft.terms.len() < terms {
            let t = draft.term(20, &row);
            draft.equal(B, t, t);
        }
    }
    for &x in &k {
        draft.equal(B, x, x);
    }
    let last = draft.terms.len() - 1;
    draft.different(B, s + 1, last);
    draft
}

/// 01's case LATE.
pub fn late() -> Draft {
    let mut draft = Draft::default();
    for symbol in 10..14 {
        draft.term(symbol, &[]);
    }
    let over = [draft.term(20, &[0]), draft.term(20, &[1])];
    draft.equal(A, 2, over[0]);
    draft.equal(A, 3, over[1]);
    draft.equal(B, 0, 1);
    draft.different(B, 2, 3);
    draft
}
