//! The graph: a forest over the terms in use and the added ones. Each vertex but a root has an edge towards its root.

use crate::colours::Colours;
use crate::tables::{Term, B};

#[derive(Clone, Copy)]
pub struct Edge {
    pub ends: [usize; 2],
    pub colour: u8,
    pub derived: bool,
}

pub struct Graph {
    pub terms: Vec<Term>,
    pub given: usize,
    pub colours: Colours,
    pub class: Vec<u16>,
    pub edges: Vec<Edge>,
    up: Vec<Option<(usize, usize)>>,
}

/// A path: its vertices, and the edges between them.
pub struct Path {
    pub vertices: Vec<usize>,
    pub edges: Vec<usize>,
}

impl Graph {
    pub fn new(terms: Vec<Term>, colours: Colours) -> Graph {
        let given = terms.len();
        let class = (0..given as u16).collect();
        Graph { terms, given, colours, class, edges: Vec::new(), up: vec![None; given] }
    }

    pub fn joined(&self, s: usize, t: usize) -> bool {
        self.class[s] == self.class[t]
    }

    pub fn shared(&self, t: usize) -> bool {
        self.colours.a[t] && self.colours.b[t]
    }

    /// A vertex more. Its arguments are shared and so is its symbol.
    pub fn add_vertex(&mut self, term: Term) -> usize {
        let place = self.terms.len();
        self.terms.push(term);
        self.class.push(place as u16);
        self.up.push(None);
        self.colours.in_use.push(true);
        self.colours.a.push(true);
        self.colours.b.push(true);
        place
    }

    pub fn add_edge(&mut self, s: usize, t: usize, colour: u8, derived: bool) {
        self.make_root(s);
        self.up[s] = Some((t, self.edges.len()));
        self.edges.push(Edge { ends: [s, t], colour, derived });
        let (from, to) = (self.class[s], self.class[t]);
        for class in self.class.iter_mut().filter(|c| **c == from) {
            *class = to;
        }
    }

    /// A derived edge is B where both ends are B-colourable, else A.
    pub fn add_derived(&mut self, s: usize, t: usize) {
        let both_b = self.colours.b[s] && self.colours.b[t];
        self.add_edge(s, t, if both_b { B } else { crate::tables::A }, true);
    }

    fn make_root(&mut self, vertex: usize) {
        let mut below = None;
        let mut at = vertex;
        while let Some((next, edge)) = std::mem::replace(&mut self.up[at], below) {
            below = Some((at, edge));
            at = next;
        }
    }

    fn to_root(&self, vertex: usize) -> Vec<usize> {
        let mut line = vec![vertex];
        while let Some((next, _)) = self.up[line[line.len() - 1]] {
            line.push(next);
        }
        line
    }

    fn edge_up(&self, vertex: usize) -> usize {
        self.up[vertex].map_or(0, |(_, edge)| edge)
    }

    /// The path between two joined vertices: up to where their lines meet, and down again.
    pub fn path(&self, from: usize, to: usize) -> Path {
        let (mut vertices, mut down) = (self.to_root(from), self.to_root(to));
        let mut meeting = from;
        while !vertices.is_empty() && vertices.last() == down.last() {
            meeting = vertices[vertices.len() - 1];
            vertices.pop();
            down.pop();
        }
        let edges = vertices.iter().chain(down.iter().rev()).map(|&v| self.edge_up(v)).collect();
        vertices.push(meeting);
        vertices.extend(down.iter().rev());
        Path { vertices, edges }
    }

    /// The ends of a derived edge's parent paths. In a forest the ends fix the path.
    pub fn parents(&self, edge: usize) -> impl Iterator<Item = (usize, usize)> + '_ {
        let Edge { ends: [s, t], derived, .. } = self.edges[edge];
        let count = if derived { self.terms[s].arity } else { 0 };
        (0..count).map(move |i| (self.terms[s].row[i] as usize, self.terms[t].row[i] as usize))
    }
}
