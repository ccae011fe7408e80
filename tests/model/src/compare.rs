//! Model and engine on the same tables: the answer, every byte of every buffer, and what the answer means.

use crate::counts::Counts;
use crate::inputs::{rooms, tables, Tables};
use crate::judge::{outcome, write, Numbers};
use crate::lent::Lent;
use crate::random::Random;
use crate::{demand3, engine, hex};

const MOST_SHOWN: usize = 5;

struct Trial {
    tables: Tables,
    model: (Numbers, Lent),
    engine: (Numbers, Lent),
    tables_kept: bool,
}

/// Table number `index` of this seed, and both calls on it.
fn trial(seed: u64, index: u64) -> Trial {
    let mut random = Random::new(seed, index);
    let tables = tables(index, &mut random);
    let outcome = outcome(&tables.terms, &tables.literals);
    let fresh = Lent::new(rooms(&outcome, &mut random), random.below(256) as u8);
    let (mut for_model, mut for_engine) = (fresh.clone(), fresh);
    let model = write(&outcome, for_model.buffers());
    let (terms, literals) = (tables.terms.clone(), tables.literals.clone());
    let engine = engine::split(&tables.terms, &tables.literals, for_engine.buffers());
    let tables_kept = terms == tables.terms && literals == tables.literals;
    Trial { tables, model: (model, for_model), engine: (engine, for_engine), tables_kept }
}

impl Trial {
    /// What is wrong, if anything: the two differ, or the answer is not a right one.
    fn fault(&mut self) -> Option<String> {
        if self.model.0 != self.engine.0 {
            return Some(format!("the answers differ\n  model  {:?}\n  engine {:?}", self.model.0, self.engine.0));
        }
        if let Some((buffer, place)) = self.model.1.difference(&self.engine.1) {
            return Some(format!("the bytes differ, first in buffer {} at {}", buffer, place));
        }
        if !self.tables_kept {
            return Some("a table was written to".to_string());
        }
        let (numbers, lent) = &mut self.engine;
        demand3::judge(&self.tables.terms, &self.tables.literals, numbers, lent.buffers()).err()
    }

    fn show(&self, seed: u64, index: u64, fault: &str) {
        println!("seed {} table {}: {}", seed, index, fault);
        println!("  terms    {}", hex::show(&self.tables.terms));
        println!("  literals {}", hex::show(&self.tables.literals));
        println!("  lent     {:?}", self.model.1.lengths());
    }
}

/// Makes one table again and says what comes of it.
pub fn one(seed: u64, index: u64) -> bool {
    let mut trial = trial(seed, index);
    let fault = trial.fault();
    trial.show(seed, index, fault.as_deref().unwrap_or("model and engine agree"));
    println!("  engine   {:?}", trial.engine.0);
    fault.is_none()
}

/// Compares so many tables; whether all agreed and every kind was met.
pub fn compare(count: u64, seed: u64) -> bool {
    println!("seed {}, {} tables", seed, count);
    let mut counts = Counts::new();
    let mut faults = 0;
    for index in 0..count {
        let mut trial = trial(seed, index);
        if let Some(fault) = trial.fault() {
            faults += 1;
            if faults <= MOST_SHOWN {
                trial.show(seed, index, &fault);
            }
        }
        let (numbers, lent) = &mut trial.model;
        counts.count(&trial.tables, numbers, lent.buffers());
        if (index + 1) % (count / 20).max(1) == 0 {
            eprintln!("{} of {} tables, {} faults", index + 1, count, faults);
        }
    }
    let met = counts.close();
    println!("seed {}: {} tables, {} faults{}", seed, count, faults, if met { "" } else { ", not every kind was met" });
    faults == 0 && met
}
