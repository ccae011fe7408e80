//! Three lent buffers between margins, all filled with a pattern.

const MARGIN: usize = 48;

#[derive(Clone, PartialEq, Eq)]
pub struct Lent {
    whole: [Vec<u8>; 3],
    lengths: [usize; 3],
}

impl Lent {
    /// The pattern has no two equal neighbours, and differs from call to call.
    pub fn new(lengths: [usize; 3], first: u8) -> Lent {
        let fill = |length: usize| (0..length + 2 * MARGIN).map(|i| (i as u8).wrapping_mul(31).wrapping_add(first)).collect();
        Lent { whole: [fill(lengths[0]), fill(lengths[1]), fill(lengths[2])], lengths }
    }

    pub fn buffers(&mut self) -> [&mut [u8]; 3] {
        let lengths = self.lengths;
        let [partition, added, clauses] = &mut self.whole;
        [&mut partition[MARGIN..MARGIN + lengths[0]], &mut added[MARGIN..MARGIN + lengths[1]], &mut clauses[MARGIN..MARGIN + lengths[2]]]
    }

    /// Whether all bytes are those of a fresh one but for the first so many of each buffer.
    pub fn keeps(&self, fresh: &Lent, counts: [usize; 3]) -> bool {
        (0..3).all(|i| {
            let behind = MARGIN + counts[i];
            self.whole[i][..MARGIN] == fresh.whole[i][..MARGIN] && self.whole[i][behind..] == fresh.whole[i][behind..]
        })
    }

    pub fn lengths(&self) -> [usize; 3] {
        self.lengths
    }

    /// The first byte at which two of the same lengths differ: the buffer and the place in it, negative in the margin before it.
    pub fn difference(&self, other: &Lent) -> Option<(usize, isize)> {
        (0..3).find_map(|buffer| {
            let at = self.whole[buffer].iter().zip(&other.whole[buffer]).position(|(x, y)| x != y)?;
            Some((buffer, at as isize - MARGIN as isize))
        })
    }
}
