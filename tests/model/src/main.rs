//! An independent model of the engine, written from document 01, and the comparison of the two.

mod clauses;
mod clock;
mod closure;
mod colours;
mod compare;
mod counts;
mod damage;
mod demand3;
mod draft;
mod engine;
mod fans;
mod graph;
mod growing;
mod hex;
mod inputs;
mod judge;
mod lent;
mod naive;
mod random;
mod search;
mod shapes;
mod soup;
mod speed;
mod tables;
mod vectors;

const USAGE: &str = "usage: model compare COUNT SEED | one SEED INDEX | vectors FILE.. | speed SEED";

fn number(text: &str) -> Option<u64> {
    text.parse().ok()
}

/// Whether all went well; nothing where the words are no command.
fn command(arguments: &[&str]) -> Option<bool> {
    match arguments {
        ["compare", count, seed] => Some(compare::compare(number(count)?, number(seed)?)),
        ["one", seed, index] => Some(compare::one(number(seed)?, number(index)?)),
        ["vectors", files @ ..] => Some(vectors::check(files)),
        ["speed", seed] => Some(speed::speed(number(seed)?)),
        _ => None,
    }
}

fn status(arguments: Vec<String>) -> i32 {
    let words: Vec<&str> = arguments.iter().map(|a| a.as_str()).collect();
    match command(&words) {
        Some(good) => !good as i32,
        None => {
            eprintln!("{}", USAGE);
            2
        }
    }
}

/// All runs on a thread with room for the engine's working storage, which lies on the stack.
fn main() {
    let arguments = std::env::args_os().skip(1).map(|a| a.to_string_lossy().into_owned()).collect();
    let worker = std::thread::Builder::new().stack_size(64 << 20).spawn(move || status(arguments));
    std::process::exit(worker.expect("a thread").join().unwrap_or(1));
}
