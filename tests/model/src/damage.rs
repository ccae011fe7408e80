//! Damage to sound tables, so that each row of the refusals is met, also several at once.

use crate::random::Random;

const TERM: usize = 16;
const LITERAL: usize = 8;

fn odd_byte(random: &mut Random) -> u8 {
    let any = random.below(256) as u8;
    random.pick(&[0, 1, 2, 3, 5, 255, any])
}

fn some_byte(table: &mut [u8], random: &mut Random) {
    if !table.is_empty() {
        let at = random.below(table.len());
        table[at] = odd_byte(random);
    }
}

fn cut_or_lengthen(table: &mut Vec<u8>, random: &mut Random) {
    if random.percent(50) {
        table.truncate(table.len().saturating_sub(random.between(1, 17)));
    } else {
        let more = random.between(1, 17);
        table.extend((0..more).map(|_| odd_byte(random)));
    }
}

/// More records than there may be: repeated ones, or any bytes, a few or very many.
fn overfill(table: &mut Vec<u8>, size: usize, most: usize, random: &mut Random) {
    let extra = random.pick(&[0, 0, 0, 1, 1, 2, 40, 4000]);
    let wanted = size * (most + extra) + if random.percent(10) { random.below(size) } else { 0 };
    if table.is_empty() || random.percent(20) {
        table.extend((table.len()..wanted).map(|_| odd_byte(random)));
    }
    while table.len() < wanted {
        let take = table.len().min(wanted - table.len());
        table.extend_from_within(..take);
    }
}

/// A field of a term record: its arity, a zero byte, an argument, or its symbol.
fn term_field(table: &mut [u8], random: &mut Random) {
    let count = table.len() / TERM;
    if count == 0 {
        return;
    }
    let place = random.below(count);
    let record = &mut table[TERM * place..TERM * (place + 1)];
    match random.below(5) {
        0 => record[2] = odd_byte(random),
        1 => record[random.pick(&[3, 12, 13, 14, 15])] = odd_byte(random),
        2 => {
            let at = random.pick(&[4, 6, 8, 10]);
            let near = (place + random.below(3)).saturating_sub(1) as u16;
            record[at..at + 2].copy_from_slice(&near.to_le_bytes());
        }
        3 => record[random.between(4, 11)] = odd_byte(random),
        _ => record[random.below(2)] = odd_byte(random),
    }
}

/// One record's bytes put over another's: a repetition, or an arity that clashes.
fn copy_record(table: &mut [u8], size: usize, part: usize, random: &mut Random) {
    let count = table.len() / size;
    if count > 1 {
        let (from, to) = (random.below(count), random.below(count));
        table.copy_within(size * from..size * from + part, size * to);
    }
}

fn literal_field(table: &mut [u8], terms: usize, random: &mut Random) {
    let count = table.len() / LITERAL;
    if count == 0 {
        return;
    }
    let place = random.below(count);
    let record = &mut table[LITERAL * place..LITERAL * (place + 1)];
    match random.below(4) {
        0 => record[random.below(2)] = odd_byte(random),
        1 => record[random.pick(&[6, 7])] = odd_byte(random),
        _ => {
            let at = random.pick(&[2, 4]);
            let near = (terms + random.below(3)).saturating_sub(1) as u16;
            record[at..at + 2].copy_from_slice(&near.to_le_bytes());
        }
    }
}

fn once(terms: &mut Vec<u8>, literals: &mut Vec<u8>, random: &mut Random) {
    match random.below(16) {
        0 => cut_or_lengthen(terms, random),
        1 => cut_or_lengthen(literals, random),
        2 => overfill(terms, TERM, 256, random),
        3 => overfill(literals, LITERAL, 1024, random),
        4..=6 => term_field(terms, random),
        7 => copy_record(terms, TERM, 2, random),
        8 | 9 => copy_record(terms, TERM, TERM, random),
        10 => copy_record(literals, LITERAL, LITERAL, random),
        11 => some_byte(terms, random),
        12 => some_byte(literals, random),
        _ => literal_field(literals, terms.len() / TERM, random),
    }
}

/// Damages two tables in one place, or in a few.
pub fn damage(terms: &mut Vec<u8>, literals: &mut Vec<u8>, random: &mut Random) {
    let times = random.pick(&[1, 1, 1, 1, 2, 3, 6]);
    for _ in 0..times {
        once(terms, literals, random);
    }
}
