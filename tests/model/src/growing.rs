//! Tables grown from equalities, in the words of A, of B and of both: literals, and applications of one function to terms that are equal by then.

use crate::draft::Draft;
use crate::random::Random;
use crate::tables::{A, B};

/// The halves that a symbol or term may stand in, as bits.
const BOTH: u8 = 3;

/// How a table is grown: its size, shares of a hundred, and how many functions there are.
pub struct Growth {
    pub terms: usize,
    pub fresh: usize,
    pub shared: usize,
    pub named: usize,
    pub equalities: usize,
    pub relays: usize,
    pub functions: usize,
    pub noise: usize,
}

struct Grower<'a> {
    random: &'a mut Random,
    growth: &'a Growth,
    draft: Draft,
    halves: Vec<u8>,
    class: Vec<usize>,
    functions: Vec<(u16, usize, u8)>,
}

const FIRST_CONSTANT: u16 = 1000;

impl<'a> Grower<'a> {
    fn new(growth: &'a Growth, random: &'a mut Random) -> Grower<'a> {
        let functions = (0..growth.functions as u16)
            .map(|symbol| {
                let arity = random.pick(&[1, 1, 1, 2, 2, 2, 2, 3, 4]);
                (symbol, arity, random.pick(&[BOTH, BOTH, BOTH, A, A, B]))
            })
            .collect();
        Grower { random, growth, draft: Draft::default(), halves: Vec::new(), class: Vec::new(), functions }
    }

    fn term(&mut self, symbol: u16, row: &[usize], half: u8) -> usize {
        let place = self.draft.term(symbol, row);
        if place == self.halves.len() {
            self.halves.push(half);
            self.class.push(place);
        }
        place
    }

    fn constant(&mut self, half: u8) -> usize {
        let symbol = FIRST_CONSTANT + self.halves.len() as u16;
        self.term(symbol, &[], half)
    }

    fn merge(&mut self, x: usize, y: usize) {
        let (old, new) = (self.class[x], self.class[y]);
        self.class.iter_mut().filter(|c| **c == old).for_each(|c| *c = new);
    }

    fn full(&self) -> bool {
        self.halves.len() >= self.growth.terms
    }

    /// One of the terms that may stand in this half and pass the test, late ones more often.
    fn some(&mut self, half: u8, test: impl Fn(&Self, usize) -> bool) -> Option<usize> {
        let fits: Vec<usize> = (0..self.halves.len()).filter(|&t| self.halves[t] & half != 0 && test(self, t)).collect();
        if fits.is_empty() {
            return None;
        }
        let low = if self.random.percent(40) { fits.len() / 2 } else { 0 };
        Some(fits[self.random.between(low, fits.len() - 1)])
    }

    /// A side for a literal: an older term, or a new constant.
    fn side_term(&mut self, half: u8) -> usize {
        let fresh = !self.full() && self.random.percent(self.growth.fresh);
        let old = if fresh { None } else { self.some(half, |_, _| true) };
        old.unwrap_or_else(|| {
            let shared = self.random.percent(self.growth.shared);
            self.constant(if shared { BOTH } else { half })
        })
    }

    fn join(&mut self, side: u8, left: usize, right: usize) {
        self.draft.equal(side, left, right);
        self.merge(left, right);
    }

    fn equality(&mut self) {
        let side = self.random.pick(&[A, B]);
        let (left, right) = (self.side_term(side), self.side_term(side));
        self.join(side, left, right);
    }

    /// A term of this half, and one of that half in the same class: another one, where there is one. Often neither may stand in more halves.
    fn equal_pair(&mut self, one: u8, other: u8) -> Option<(usize, usize)> {
        let strict = self.random.percent(60);
        let fits = |g: &Self, t: usize, half: u8| !strict || g.halves[t] == half;
        let x = self.some(one, |g, t| fits(g, t, one)).or_else(|| self.some(one, |_, _| true))?;
        let another = self.some(other, |g, t| t != x && g.class[t] == g.class[x] && fits(g, t, other));
        let another = another.or_else(|| self.some(other, |g, t| t != x && g.class[t] == g.class[x]));
        let same = if self.halves[x] & other != 0 { Some(x) } else { None };
        Some((x, another.or(same)?))
    }

    /// Two terms of both halves that are equal by then.
    fn shared_pair(&mut self) -> Option<(usize, usize)> {
        let x = self.some(BOTH, |g, t| g.halves[t] == BOTH)?;
        Some((x, self.some(BOTH, |g, t| t != x && g.halves[t] == BOTH && g.class[t] == g.class[x])?))
    }

    /// A function of one half over shared terms that are equal by then, and shared names for both: one half draws a conclusion for the other.
    fn relay(&mut self) -> Option<()> {
        let (symbol, arity, side) = self.random.pick(&self.functions);
        if side == BOTH || self.halves.len() + 4 > self.growth.terms {
            return None;
        }
        let mut rows = [Vec::new(), Vec::new()];
        for _ in 0..arity {
            let (x, y) = self.shared_pair()?;
            rows[0].push(x);
            rows[1].push(y);
        }
        let ends = [self.term(symbol, &rows[0], side), self.term(symbol, &rows[1], side)];
        self.merge(ends[0], ends[1]);
        for end in ends {
            let name = self.constant(BOTH);
            self.join(side, name, end);
        }
        Some(())
    }

    /// One function over equal arguments, once in this half and once in that.
    fn congruence(&mut self) -> Option<()> {
        let (symbol, arity, half) = self.random.pick(&self.functions);
        let halves = if half == BOTH { [A, B] } else { [half, half] };
        let (one, other) = (self.random.pick(&halves), self.random.pick(&halves));
        let mut rows = [Vec::new(), Vec::new()];
        for _ in 0..arity {
            let (x, y) = self.equal_pair(one, other)?;
            rows[0].push(x);
            rows[1].push(y);
        }
        let half_of = |row: &[usize]| row.iter().fold(half, |h, &x| h & self.halves[x]);
        let halves = [half_of(&rows[0]), half_of(&rows[1])];
        let s = self.term(symbol, &rows[0], halves[0]);
        let t = self.term(symbol, &rows[1], halves[1]);
        self.merge(s, t);
        self.mention(s);
        self.mention(t);
        Some(())
    }

    /// Brings a term into use: by a name for it, by an equality with itself, or not at all.
    fn mention(&mut self, term: usize) {
        let side = match self.halves[term] {
            BOTH => self.random.pick(&[A, B]),
            half => half,
        };
        if self.random.percent(self.growth.named) && !self.full() {
            let half = if self.random.percent(70) { BOTH } else { side };
            let name = self.constant(half);
            self.join(side, name, term);
        } else if self.random.percent(70) {
            self.draft.equal(side, term, term);
        }
    }

    /// A shared function over shared terms, in no literal: it may equal a middle term, and yet is no vertex.
    fn idle(&mut self) -> Option<()> {
        let (symbol, arity, half) = self.random.pick(&self.functions);
        let row: Vec<usize> = (0..arity).map(|_| self.some(BOTH, |g, t| g.halves[t] == BOTH)).collect::<Option<_>>()?;
        if half == BOTH && !self.full() {
            self.term(symbol, &row, half);
        }
        Some(())
    }

    /// Grows until there is no room for a congruence with two names, then fills up with constants.
    fn grow(&mut self) {
        self.equality();
        for _ in 0..4 * self.growth.terms {
            if self.halves.len() + 4 > self.growth.terms {
                break;
            }
            if self.random.percent(self.growth.equalities) {
                self.equality();
            } else if self.random.percent(self.growth.relays) {
                self.relay();
            } else {
                self.congruence();
            }
        }
        for _ in 0..self.random.below(4) {
            self.idle();
        }
        while !self.full() {
            let (side, half) = (self.random.pick(&[A, B]), self.random.pick(&[A, B]));
            let (name, term) = (self.constant(half), self.side_term(side));
            if half == side {
                self.join(side, name, term);
            }
        }
    }

    /// A disequality, mostly between terms that are equal by then.
    fn disequality(&mut self) {
        let side = self.random.pick(&[A, B]);
        let far = self.random.percent(60);
        let mut found = None;
        for _ in 0..6 {
            let next = if far { self.shared_pair() } else { self.equal_pair(side, side) };
            found = next.filter(|(x, y)| x != y).or(found);
        }
        let any = self.random.below(self.halves.len());
        let (x, y) = found.or_else(|| self.equal_pair(side, side)).unwrap_or((any, any));
        let y = if self.random.percent(15) { any } else { y };
        self.draft.different(side, x, y);
    }

    /// Literals that heed no half: repetitions, either side, either order.
    fn noise(&mut self) {
        let (_, kind, left, right) = self.random.pick(&self.draft.literals);
        let side = self.random.pick(&[A, B]);
        self.draft.literals.push((side, kind, right, left));
    }
}

pub fn grown(growth: &Growth, random: &mut Random) -> Draft {
    let mut grower = Grower::new(growth, random);
    grower.grow();
    for _ in 0..grower.random.pick(&[0, 1, 1, 1, 2, 3]) {
        grower.disequality();
    }
    for _ in 0..growth.noise {
        grower.noise();
    }
    let mut draft = grower.draft;
    random.shuffle(&mut draft.literals);
    draft.renumbered(random)
}
