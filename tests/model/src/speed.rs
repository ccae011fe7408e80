//! The time of the engine beside that of the model: the same tables, in one process.

use crate::draft::Draft;
use crate::fans::{clauses, FULL};
use crate::inputs::{grown_to, Tables};
use crate::judge::{self, Call, CONSISTENT, INCONSISTENT};
use crate::random::Random;
use crate::shapes::{late, middles, towers, unary_chain};
use crate::tables::{A, B};
use crate::{clock, engine};

/// One row of the table: its name and the tables that it is measured over.
struct Row {
    name: &'static str,
    tables: Vec<Tables>,
}

/// Buffers that are long enough for every table here, what the calls returned (so that none is left out), and the seed.
struct Room {
    buffers: [Vec<u8>; 3],
    seen: usize,
    seed: u64,
}

impl Room {
    fn new(seed: u64) -> Room {
        Room { buffers: [vec![0; 512], vec![0; 4080], vec![0; 1 << 20]], seen: 0, seed }
    }

    fn lent(&mut self) -> [&mut [u8]; 3] {
        let [partition, added, clauses] = &mut self.buffers;
        [partition, added, clauses]
    }
}

/// The least microseconds of a sample, and how many are taken.
const SHORTEST: f64 = 200.0;
const SAMPLES: usize = 15;

fn timed(call: Call, tables: &Tables, calls: u32, room: &mut Room) -> f64 {
    let start = clock::now();
    for _ in 0..calls {
        let numbers = call(&tables.terms, &tables.literals, room.lent());
        room.seen ^= numbers.records;
    }
    clock::now() - start
}

/// So many calls that one sample is long enough to be timed.
fn calls_for(tables: &Tables, room: &mut Room) -> u32 {
    let mut calls = 1;
    while calls < 1 << 16 && timed(judge::split, tables, calls, room) < SHORTEST {
        calls *= 2;
    }
    calls
}

fn median(times: &mut [f64]) -> f64 {
    times.sort_by(|x, y| x.total_cmp(y));
    times[times.len() / 2]
}

/// Microseconds of one call on one table, engine and model: the least of samples taken in turn, for other work on the machine only adds to a time.
fn measure(tables: &Tables, room: &mut Room) -> (f64, f64) {
    let calls = calls_for(tables, room);
    let (mut of_engine, mut of_model) = (Vec::new(), Vec::new());
    for _ in 0..SAMPLES {
        of_engine.push(timed(engine::split, tables, calls, room) / calls as f64);
        of_model.push(timed(judge::split, tables, calls, room) / calls as f64);
    }
    (least(&of_engine), least(&of_model))
}

fn least(times: &[f64]) -> f64 {
    times.iter().copied().fold(f64::INFINITY, f64::min)
}

fn worst(times: &[f64]) -> f64 {
    times.iter().copied().fold(0.0, f64::max)
}

fn print(row: &Row, room: &mut Room) {
    let times: Vec<(f64, f64)> = row.tables.iter().map(|t| measure(t, room)).collect();
    let mut of_engine: Vec<f64> = times.iter().map(|t| t.0).collect();
    let mut of_model: Vec<f64> = times.iter().map(|t| t.1).collect();
    let highest = worst(&times.iter().map(|t| t.0 / t.1).collect::<Vec<f64>>());
    let (engine, model) = (median(&mut of_engine), median(&mut of_model));
    println!(
        "| {} | {} | {:.1} | {:.1} | {:.2} | {:.1} | {:.1} | {:.2} | {:.2} |",
        row.name,
        times.len(),
        engine,
        model,
        engine / model,
        worst(&of_engine),
        worst(&of_model),
        worst(&of_engine) / worst(&of_model),
        highest
    );
}

fn only(name: &'static str, draft: Draft) -> Row {
    Row { name, tables: vec![Tables::of(&draft)] }
}

/// So many random tables of this size and verdict.
fn grown_row(name: &'static str, terms: usize, verdict: usize, count: usize, room: &mut Room) -> Row {
    let mut tables = Vec::new();
    for index in 0.. {
        let next = Tables::of(&grown_to(terms, &mut Random::new(room.seed, index)));
        if judge::split(&next.terms, &next.literals, room.lent()).verdict == verdict {
            tables.push(next);
        }
        if tables.len() == count {
            break;
        }
    }
    Row { name, tables }
}

fn rows(room: &mut Room) -> Vec<Row> {
    vec![
        only("LATE", late()),
        grown_row("random, 12 terms, consistent", 12, CONSISTENT, 200, room),
        grown_row("random, 12 terms, inconsistent", 12, INCONSISTENT, 200, room),
        grown_row("random, 64 terms, consistent", 64, CONSISTENT, 200, room),
        grown_row("random, 64 terms, inconsistent", 64, INCONSISTENT, 200, room),
        grown_row("random, 256 terms, consistent", 256, CONSISTENT, 50, room),
        grown_row("random, 256 terms, inconsistent", 256, INCONSISTENT, 50, room),
        only("256 terms, 254 derived steps", unary_chain(256, A, B)),
        only("256 terms, 248 middle terms", middles(256, 5)),
        only("256 terms, 83,232 clause records", clauses(&FULL, &FULL)),
        only("sixty levels of f(x,x)", towers(60, 2, B, A)),
    ]
}

/// Prints the table in the form that docs/SPEED.md has it.
pub fn speed(seed: u64) -> bool {
    let mut room = Room::new(seed);
    println!("| case | tables | engine, median | model, median | ratio | engine, worst | model, worst | ratio of worst | highest ratio |");
    println!("|---|---|---|---|---|---|---|---|---|");
    for row in rows(&mut room) {
        print(&row, &mut room);
    }
    true
}
