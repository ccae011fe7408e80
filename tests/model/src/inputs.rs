//! The tables for each number of a run: which shape, which size, whether damaged, and which room is lent.

use crate::damage::damage;
use crate::draft::Draft;
use crate::fans::{clauses, Fan, FULL};
use crate::growing::{grown, Growth};
use crate::judge::Outcome;
use crate::random::Random;
use crate::shapes::{middles, towers, unary_chain};
use crate::soup::soup;

/// How many tables of a run have a plan for certain.
const PLANNED: u64 = 64;

/// The numbers of the shapes with a plan are below this one.
const SHAPES: usize = 8;

pub struct Tables {
    pub terms: Vec<u8>,
    pub literals: Vec<u8>,
}

impl Tables {
    pub fn of(draft: &Draft) -> Tables {
        Tables { terms: draft.term_bytes(), literals: draft.literal_bytes() }
    }
}

/// Grown tables of about so many terms.
pub fn grown_to(terms: usize, random: &mut Random) -> Draft {
    let growth = Growth {
        terms,
        fresh: random.pick(&[10, 25, 40, 70]),
        shared: random.pick(&[20, 40, 60, 90]),
        named: random.pick(&[20, 50, 80]),
        equalities: random.pick(&[10, 20, 40, 70]),
        relays: random.pick(&[0, 30, 70]),
        functions: random.between(1, 3 + terms / 8),
        noise: random.pick(&[0, 0, 0, 0, 0, 1, 2, terms / 2]),
    };
    grown(&growth, random)
}

fn any_fan(random: &mut Random) -> Fan {
    Fan { hubs: random.pick(&[1, 2, 4]), right: random.between(1, 18), groups: random.between(1, 9) }
}

/// With the first middle term given, but in no literal.
fn idle_middle(mut draft: Draft) -> Draft {
    draft.term(20, &[2; 4]);
    draft
}

/// Shapes with a plan, some with their literals in another order or their terms under other numbers.
fn shaped(which: usize, random: &mut Random) -> Draft {
    let (one, two) = (random.pick(&[1, 2]), random.pick(&[1, 2]));
    let draft = match which {
        0 | 1 => towers(random.between(0, 127), random.between(1, 4), one, two),
        2 => unary_chain(random.between(2, 256), one, two),
        3 => middles(random.between(9, 256), random.between(2, 5)),
        4 => idle_middle(middles(random.between(9, 255), random.between(2, 5))),
        5 => clauses(&FULL, &FULL),
        _ => clauses(&any_fan(random), &any_fan(random)),
    };
    let mut draft = if random.percent(50) { draft.renumbered(random) } else { draft };
    if random.percent(50) {
        random.shuffle(&mut draft.literals);
    }
    draft
}

fn many_literals(random: &mut Random) -> Draft {
    let terms = random.between(1, 60);
    let symbols = random.between(1, 20);
    soup(terms, symbols, random.pick(&[900, 1023, 1024]), random)
}

/// A sound pair of tables. Large ones are rare, so that a run of a million has time for many small ones.
fn sound(random: &mut Random) -> Draft {
    match random.below(1000) {
        0..=4 => shaped(random.below(SHAPES), random),
        5..=14 => grown_to(256, random),
        15..=18 => many_literals(random),
        19..=80 => grown_to(64, random),
        81..=90 => grown_to(random.between(65, 255), random),
        91..=400 => grown_to(random.between(20, 48), random),
        401..=750 => grown_to(random.between(6, 20), random),
        751..=850 => grown_to(random.between(1, 10), random),
        _ => soup(random.between(0, 12), random.between(1, 6), random.between(0, 16), random),
    }
}

/// The tables with this number in a run. The first ones all have a plan, so that short runs meet every kind too.
pub fn tables(index: u64, random: &mut Random) -> Tables {
    let planned = index < PLANNED;
    let draft = if planned { shaped(index as usize % SHAPES, random) } else { sound(random) };
    let mut tables = Tables::of(&draft);
    if random.percent(15) {
        damage(&mut tables.terms, &mut tables.literals, random);
    }
    tables
}

fn room(need: usize, random: &mut Random) -> usize {
    match random.below(20) {
        0..=9 => need + random.below(70),
        10..=12 => need,
        13..=15 => need + 1,
        16 => need.saturating_sub(1),
        17 => need - random.below(need.min(20) + 1),
        18 => random.below(need + 1),
        _ => 0,
    }
}

/// The lengths to lend: about what the answer needs, for buffers that it does not fill anything.
pub fn rooms(outcome: &Outcome, random: &mut Random) -> [usize; 3] {
    let mut needs = [random.below(40), random.below(40), random.below(40)];
    match outcome {
        Outcome::Refused(_) => {}
        Outcome::Consistent { partition } => needs[0] = partition.len(),
        Outcome::Inconsistent { added, clauses, .. } => {
            needs[1] = added.len();
            needs[2] = clauses.len();
        }
    }
    needs.map(|need| room(need, random))
}
