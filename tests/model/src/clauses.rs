//! Reading the clauses: factors, premises, path clauses, and the summary of a disequality.

use crate::graph::{Graph, Path};
use crate::tables::{Literal, A, B};

/// An equality of two terms, the lower one first.
pub type Pair = (u16, u16);

#[derive(Clone, Copy, PartialEq, Eq)]
pub enum Conclusion {
    Equal(Pair),
    Different(Pair),
    False,
}

pub struct Clause {
    pub premises: Vec<Pair>,
    pub conclusion: Conclusion,
}

/// One of a path's longest stretches of one colour.
struct Factor<'a> {
    ends: Pair,
    colour: u8,
    edges: &'a [usize],
}

pub struct Reading<'a> {
    graph: &'a Graph,
    learnt: Vec<Option<Vec<Pair>>>,
    opened: Vec<bool>,
    walked: Vec<bool>,
    concluded: Vec<bool>,
    clauses: Vec<Clause>,
}

fn pair(x: usize, y: usize) -> Pair {
    (x.min(y) as u16, x.max(y) as u16)
}

fn factors<'a>(graph: &Graph, path: &'a Path) -> Vec<Factor<'a>> {
    let mut list = Vec::new();
    let mut start = 0;
    for at in 1..=path.edges.len() {
        let colour = graph.edges[path.edges[start]].colour;
        if at == path.edges.len() || graph.edges[path.edges[at]].colour != colour {
            let ends = pair(path.vertices[start], path.vertices[at]);
            list.push(Factor { ends, colour, edges: &path.edges[start..at] });
            start = at;
        }
    }
    list
}

fn in_order(mut pairs: Vec<Pair>) -> Vec<Pair> {
    pairs.sort_unstable();
    pairs.dedup();
    pairs
}

impl<'a> Reading<'a> {
    pub fn new(graph: &'a Graph) -> Reading<'a> {
        let (vertices, edges) = (graph.terms.len(), graph.edges.len());
        Reading {
            graph,
            learnt: (0..edges).map(|_| None).collect(),
            opened: vec![false; vertices * vertices],
            walked: vec![false; edges],
            concluded: vec![false; vertices * vertices],
            clauses: Vec::new(),
        }
    }

    fn first_time(marks: &mut [bool], vertices: usize, (x, y): Pair) -> bool {
        !std::mem::replace(&mut marks[x as usize * vertices + y as usize], true)
    }

    /// The premises of a path are those of its factors.
    fn premises(&mut self, path: &Path) -> Vec<Pair> {
        let mut all = Vec::new();
        for factor in factors(self.graph, path) {
            if factor.colour == B {
                all.push(factor.ends);
            } else {
                self.premises_of(factor.edges, &mut all);
            }
        }
        in_order(all)
    }

    /// The premises of an A-factor: those of the parent paths of its edges. Each edge is asked once.
    fn premises_of(&mut self, edges: &[usize], all: &mut Vec<Pair>) {
        for &edge in edges {
            if self.learnt[edge].is_none() {
                let mut below = Vec::new();
                for (x, y) in self.graph.parents(edge) {
                    below.extend(self.premises(&self.graph.path(x, y)));
                }
                self.learnt[edge] = Some(in_order(below));
            }
            all.extend(self.learnt[edge].iter().flatten());
        }
    }

    /// The path clauses of the paths between these ends, and of all that these mention.
    fn path_clauses(&mut self, mut open: Vec<Pair>) {
        let vertices = self.graph.terms.len();
        while let Some(ends) = open.pop() {
            if Self::first_time(&mut self.opened, vertices, ends) {
                let path = self.graph.path(ends.0 as usize, ends.1 as usize);
                for factor in factors(self.graph, &path) {
                    if factor.colour == B {
                        self.open_parents(factor.edges, &mut open);
                    } else if Self::first_time(&mut self.concluded, vertices, factor.ends) {
                        self.conclude(&factor, &mut open);
                    }
                }
            }
        }
    }

    /// A B-factor has the path clauses of its edges' parent paths.
    fn open_parents(&mut self, edges: &[usize], open: &mut Vec<Pair>) {
        for &edge in edges {
            if !std::mem::replace(&mut self.walked[edge], true) {
                open.extend(self.graph.parents(edge).map(|(x, y)| pair(x, y)));
            }
        }
    }

    /// An A-factor has the clause "premises imply [factor]" and the path clauses of each premise.
    fn conclude(&mut self, factor: &Factor, open: &mut Vec<Pair>) {
        let mut premises = Vec::new();
        self.premises_of(factor.edges, &mut premises);
        let premises = in_order(premises);
        open.extend(&premises);
        self.clauses.push(Clause { premises, conclusion: Conclusion::Equal(factor.ends) });
    }

    /// Disequality in A: the middle stretch runs from the first to the last B-colourable vertex; the rest is outer.
    fn of_a(&mut self, path: &Path) {
        let b = &self.graph.colours.b;
        let first = path.vertices.iter().position(|&v| b[v]);
        let last = path.vertices.iter().rposition(|&v| b[v]);
        let end = path.vertices.len() - 1;
        let (first, last) = first.zip(last).unwrap_or((end, end));
        let mut outer = self.premises(&stretch(path, 0, first));
        outer.extend(self.premises(&stretch(path, last, end)));
        let premises = in_order(outer);
        let middle = pair(path.vertices[first], path.vertices[last]);
        let mut open = premises.clone();
        open.push(middle);
        self.path_clauses(open);
        let conclusion = if first == last { Conclusion::False } else { Conclusion::Different(middle) };
        self.clauses.push(Clause { premises, conclusion });
    }

    /// The summary: clauses ascending by conclusion, one of kind 3 or 4 last.
    pub fn summary(mut self, critical: &Literal) -> Vec<Clause> {
        if critical.side == A {
            self.of_a(&self.graph.path(critical.left, critical.right));
        } else {
            self.path_clauses(vec![pair(critical.left, critical.right)]);
        }
        self.clauses.sort_by_key(|clause| match clause.conclusion {
            Conclusion::Equal(pair) => (0, pair),
            Conclusion::Different(pair) => (1, pair),
            Conclusion::False => (2, (0, 0)),
        });
        self.clauses
    }
}

fn stretch(path: &Path, from: usize, to: usize) -> Path {
    Path { vertices: path.vertices[from..=to].to_vec(), edges: path.edges[from..to].to_vec() }
}
