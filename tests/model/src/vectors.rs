//! The answers of vector files beside those of the model and of the engine.

use crate::judge::{Call, Numbers, CONSISTENT, INCONSISTENT, REFUSED};
use crate::lent::Lent;
use crate::{engine, hex, judge};

struct Case {
    tables: [Vec<u8>; 2],
    lengths: [usize; 3],
    answer: String,
}

/// `TERMS LITERALS PARTITION ADDED CLAUSES | ANSWER`, with or without a `NAME |` before it.
fn case(line: &str) -> Option<Case> {
    let parts: Vec<&str> = line.split(" | ").collect();
    let fields: Vec<&str> = parts.get(parts.len().checked_sub(2)?)?.split(' ').collect();
    let length = |i: usize| fields.get(i)?.parse::<usize>().ok();
    Some(Case {
        tables: [hex::read(fields.first()?)?, hex::read(fields.get(1)?)?],
        lengths: [length(2)?, length(3)?, length(4)?],
        answer: parts.last()?.to_string(),
    })
}

/// The answer as a line, or what is wrong with the bytes that should have kept their content.
fn line(numbers: Numbers, terms: usize, lent: &mut Lent, fresh: &Lent) -> String {
    let counts = match numbers.verdict {
        REFUSED => [0, 0, 0],
        CONSISTENT => [2 * terms, 0, 0],
        INCONSISTENT => [0, 16 * numbers.added, 8 * numbers.records],
        _ => return "no verdict".to_string(),
    };
    let mut texts = Vec::new();
    for (buffer, count) in lent.buffers().into_iter().zip(counts) {
        texts.push(hex::show(&buffer[..count]));
    }
    if !lent.keeps(fresh, counts) {
        return "bytes changed that should keep their content".to_string();
    }
    match numbers.verdict {
        REFUSED => format!("refused {} at {}", numbers.number, numbers.place),
        CONSISTENT => format!("consistent partition={}", texts[0]),
        _ => format!("inconsistent by {} added={} clauses={}", numbers.disequality, texts[1], texts[2]),
    }
}

fn answers(case: &Case, name: &str, call: Call) -> bool {
    let fresh = Lent::new(case.lengths, 90);
    let mut lent = fresh.clone();
    let numbers = call(&case.tables[0], &case.tables[1], lent.buffers());
    let got = line(numbers, case.tables[0].len() / 16, &mut lent, &fresh);
    if got != case.answer {
        println!("{}: {}\n  should be: {}", name, got, case.answer);
    }
    got == case.answer
}

/// Whether a line's case is answered by both as it says.
fn agrees(line: &str) -> bool {
    match case(line) {
        Some(case) => answers(&case, "model", judge::split) & answers(&case, "engine", engine::split),
        None => {
            println!("not a case");
            false
        }
    }
}

/// Goes over the files and says how many lines were answered alike; whether all files could be read and all lines were.
pub fn check(files: &[&str]) -> bool {
    let (mut right, mut all, mut read) = (0, 0, true);
    for file in files {
        let text = std::fs::read_to_string(file).unwrap_or_else(|e| {
            eprintln!("{}: {}", file, e);
            read = false;
            String::new()
        });
        for (number, line) in text.lines().enumerate().filter(|(_, l)| !l.is_empty() && !l.starts_with('#')) {
            let both = agrees(line);
            if !both {
                println!("  at {}:{}", file, number + 1);
            }
            right += both as usize;
            all += 1;
        }
    }
    println!("{} of {} vectors answered as they say by model and engine", right, all);
    read && right == all && all > 0
}
