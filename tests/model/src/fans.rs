//! Tables with many clauses of many premises each.
//!
//! A fan stands over constants on a left and a right: the applications of a few hub symbols. Each hub's first application is joined to all others,
//! and each of these edges has four parent paths from left to right. Groups of two applications over eight of them put all these edges below one line.

use crate::draft::Draft;
use crate::tables::{A, B};

#[derive(Clone, Copy)]
pub struct Fan {
    pub hubs: usize,
    pub right: usize,
    pub groups: usize,
}

/// Two fans of 128 terms each.
pub const FULL: Fan = Fan { hubs: 4, right: 18, groups: 9 };

struct Line {
    start: usize,
    end: usize,
}

/// The spoke with this number: the hub's symbol over four constants of the right, so that each pair of left and right is met once.
fn spoke(draft: &mut Draft, hub: u16, turn: usize, right: &[usize]) -> usize {
    let row: Vec<usize> = (0..4).map(|j| right[(turn + j) % right.len()]).collect();
    draft.term(hub, &row)
}

/// The first application of each hub symbol, brought into use by an equality with itself.
fn hubs(draft: &mut Draft, fan: &Fan, side: u8, symbol: u16, left: &[usize]) {
    for hub in 0..fan.hubs {
        let first = draft.term(symbol + hub as u16, &left[4 * hub..4 * hub + 4]);
        draft.equal(side, first, first);
    }
}

/// Adds a fan with symbols from this one on, and literals of this side that make one line of its groups.
fn add_fan(draft: &mut Draft, fan: &Fan, side: u8, symbol: u16, left: &[usize], right: &[usize]) -> Line {
    hubs(draft, fan, side, symbol, left);
    let mut line = Line { start: 0, end: 0 };
    for group in 0..fan.groups {
        let mut rows = [[0; 4]; 2];
        for k in 0..4 {
            let turn = 4 * group + k;
            let hub = symbol + (turn % fan.hubs) as u16;
            for (half, row) in rows.iter_mut().enumerate() {
                row[k] = spoke(draft, hub, 2 * (turn / fan.hubs) + half, right);
            }
        }
        let over = symbol + (fan.hubs + group) as u16;
        let ends = rows.map(|row| draft.term(over, &row));
        if group == 0 {
            line.start = ends[0];
        } else {
            draft.equal(side, line.end, ends[0]);
        }
        line.end = ends[1];
    }
    line
}

fn constants(draft: &mut Draft, count: usize, symbol: u16) -> Vec<usize> {
    (0..count).map(|i| draft.term(symbol + i as u16, &[])).collect()
}

/// The fan of A stands over constants that B joins: its line has a premise for each pair of them. The fan of B stands over constants that A joins
/// to the two ends of that line: it needs a clause for each pair of these.
pub fn clauses(premises: &Fan, conclusions: &Fan) -> Draft {
    let mut draft = Draft::default();
    let u = constants(&mut draft, 4 * premises.hubs, 1000);
    let v = constants(&mut draft, premises.right, 2000);
    let s = constants(&mut draft, 4 * conclusions.hubs, 3000);
    let t = constants(&mut draft, conclusions.right, 4000);
    for &x in u[1..].iter().chain(&v) {
        draft.equal(B, u[0], x);
    }
    let line = add_fan(&mut draft, premises, A, 100, &u, &v);
    for &x in &s {
        draft.equal(A, line.start, x);
    }
    for &x in &t {
        draft.equal(A, line.end, x);
    }
    let line = add_fan(&mut draft, conclusions, B, 200, &s, &t);
    draft.different(B, line.start, line.end);
    draft
}
