//! The library's own run: all basic steps by record number, then always the derived step on the first pair, until none is left.

use crate::colours::colours;
use crate::graph::Graph;
use crate::search::Search;
use crate::tables::{Literal, Tables, Term};

fn basic_steps(graph: &mut Graph, literals: &[Literal]) {
    for literal in literals.iter().filter(|l| l.equal) {
        if !graph.joined(literal.left, literal.right) {
            graph.add_edge(literal.left, literal.right, literal.side, false);
        }
    }
}

/// The middle term: the symbol of s over the first shared term on each parent path, met from the argument of s.
fn middle_term(graph: &Graph, s: usize, t: usize) -> Term {
    let mut middle = graph.terms[s];
    for i in 0..middle.arity {
        let path = graph.path(graph.terms[s].row[i] as usize, graph.terms[t].row[i] as usize);
        let chosen = path.vertices.into_iter().find(|&v| graph.shared(v));
        middle.row[i] = chosen.expect("a shared term on each parent path") as u16;
    }
    middle
}

fn vertex_of(graph: &Graph, term: &Term) -> Option<usize> {
    (0..graph.terms.len()).find(|&v| graph.colours.in_use[v] && graph.terms[v] == *term)
}

/// Joins over a middle term s, which is A-colourable only, and t, which is B-colourable only.
fn step_over_middle(graph: &mut Graph, s: usize, t: usize) {
    let middle = middle_term(graph, s, t);
    let m = vertex_of(graph, &middle).unwrap_or_else(|| graph.add_vertex(middle));
    for end in [s, t] {
        if !graph.joined(end, m) {
            graph.add_derived(end, m);
        }
    }
}

fn derived_step(graph: &mut Graph, s: usize, t: usize) {
    let (a, b) = (&graph.colours.a, &graph.colours.b);
    if (a[s] && a[t]) || (b[s] && b[t]) {
        graph.add_derived(s, t);
    } else if a[s] {
        step_over_middle(graph, s, t);
    } else {
        step_over_middle(graph, t, s);
    }
}

pub fn run(tables: &Tables) -> Graph {
    let mut graph = Graph::new(tables.terms.clone(), colours(tables));
    basic_steps(&mut graph, &tables.literals);
    let mut search = Search::new(&graph);
    while let Some((s, t)) = search.first_pair(&graph) {
        derived_step(&mut graph, s, t);
    }
    graph
}
