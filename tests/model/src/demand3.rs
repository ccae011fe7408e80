//! Judging an answer by what it means. The classes are those of a plain closure. A summary has shared symbols only, each of its clauses follows
//! from A (A, the premises and the negated conclusion together are inconsistent), and B with all that the clauses then give is inconsistent.

use crate::judge::{Numbers, CONSISTENT, INCONSISTENT};
use crate::naive::{two, Classes};

type Pair = (usize, usize);

struct Horn {
    premises: Vec<Pair>,
    kind: u8,
    conclusion: Pair,
}

fn need(good: bool, what: &str) -> Result<(), String> {
    if good {
        Ok(())
    } else {
        Err(what.to_string())
    }
}

fn pair(record: &[u8]) -> Pair {
    (two(record, 2), two(record, 4))
}

/// The sides of one half's literals of one kind; half 0 is both.
fn sides(literals: &[u8], half: u8, kind: u8) -> Vec<Pair> {
    literals.chunks(8).filter(|r| (half == 0 || r[0] == half) && r[1] == kind).map(pair).collect()
}

fn closed(mut classes: Classes, equalities: &[Pair]) -> Classes {
    equalities.iter().for_each(|&(x, y)| {
        classes.merge(x, y);
    });
    classes.close();
    classes
}

fn refuted(classes: &Classes, disequalities: &[Pair]) -> bool {
    disequalities.iter().any(|&(x, y)| classes.same(x, y))
}

/// The terms in one half's literals and all below them.
fn mentioned(classes: &Classes, literals: &[u8], half: u8) -> Vec<bool> {
    let mut marks = vec![false; classes.count()];
    let mut open: Vec<usize> = Vec::new();
    for (x, y) in sides(literals, half, 1).into_iter().chain(sides(literals, half, 2)) {
        open.extend([x, y]);
    }
    while let Some(x) = open.pop() {
        if !std::mem::replace(&mut marks[x], true) {
            open.extend(classes.arguments(x));
        }
    }
    marks
}

fn judge_partition(terms: &[u8], literals: &[u8], partition: &[u8]) -> Result<(), String> {
    let classes = closed(Classes::new(terms), &sides(literals, 0, 1));
    need(!refuted(&classes, &sides(literals, 0, 2)), "consistent, but a disequality is refuted")?;
    let used = mentioned(&classes, literals, 0);
    for t in 0..classes.count() {
        let lowest = (0..=t).find(|&x| used[x] && classes.same(x, t)).unwrap_or(0);
        let wanted = if used[t] { lowest } else { 65535 };
        need(two(partition, 2 * t) == wanted, "a class of the partition")?;
    }
    Ok(())
}

fn judge_critical(terms: &[u8], literals: &[u8], disequality: usize) -> Result<(), String> {
    let classes = closed(Classes::new(terms), &sides(literals, 0, 1));
    let first = literals.chunks(8).position(|r| r[1] == 2 && classes.same(pair(r).0, pair(r).1));
    need(first == Some(disequality), "not the lowest refuted disequality")
}

/// The layout of the records, and their order: each premise once, each conclusion once, one of kind 3 or 4 last.
fn read_clauses(bytes: &[u8]) -> Result<Vec<Horn>, String> {
    let mut list: Vec<Horn> = Vec::new();
    let mut premises: Vec<Pair> = Vec::new();
    for record in bytes.chunks(8) {
        let (kind, (left, right)) = (record[0], pair(record));
        need(record[1] == 0 && record[6..] == [0; 2], "a clause record's zero bytes")?;
        need(left < right || (kind == 4 && left == 0 && right == 0), "left is not below right")?;
        if kind == 1 {
            need(premises.last().map_or(true, |&p| p < (left, right)), "premises do not ascend")?;
            premises.push((left, right));
        } else {
            need((2..=4).contains(&kind), "a clause record's kind")?;
            let after = |last: &Horn| last.kind == 2 && (kind > 2 || last.conclusion < (left, right));
            need(list.last().map_or(true, after), "clauses do not ascend")?;
            list.push(Horn { premises: std::mem::take(&mut premises), kind, conclusion: (left, right) });
        }
    }
    need(premises.is_empty(), "premises without a conclusion")?;
    Ok(list)
}

fn judge_added(records: &[u8], given: usize) -> Result<(), String> {
    for (place, record) in records.chunks(16).enumerate().skip(given) {
        let arity = record[2] as usize;
        let like = records.chunks(16).take(given).any(|r| r[..3] == record[..3]);
        need(like && record[3] == 0 && record[12..] == [0; 4], "an added term's layout")?;
        let field = |i: usize| two(record, 4 + 2 * i);
        let good = (0..4).all(|i| if i < arity { field(i) < place } else { field(i) == 0 });
        need(good, "an added term's arguments")?;
    }
    Ok(())
}

/// For each term whether all its symbols occur in this half.
fn in_words_of(classes: &Classes, literals: &[u8], half: u8) -> Vec<bool> {
    let marks = mentioned(classes, literals, half);
    let words: Vec<u16> = (0..classes.count()).filter(|&t| marks[t]).map(|t| classes.symbol(t)).collect();
    let mut good: Vec<bool> = Vec::new();
    for t in 0..classes.count() {
        let below = classes.arguments(t).iter().all(|&x| good[x]);
        good.push(below && words.contains(&classes.symbol(t)));
    }
    good
}

fn judge_words(classes: &Classes, literals: &[u8], clauses: &[Horn]) -> Result<(), String> {
    let (a, b) = (in_words_of(classes, literals, 1), in_words_of(classes, literals, 2));
    for clause in clauses {
        let own = if clause.kind == 4 { None } else { Some(&clause.conclusion) };
        for &(x, y) in clause.premises.iter().chain(own) {
            need(x < a.len() && y < a.len(), "a clause names no term")?;
            need(a[x] && b[x] && a[y] && b[y], "a clause with a symbol that is not shared")?;
        }
    }
    Ok(())
}

fn judge_a(classes: &Classes, literals: &[u8], clauses: &[Horn]) -> Result<(), String> {
    let base = closed(classes.clone(), &sides(literals, 1, 1));
    let different = sides(literals, 1, 2);
    for clause in clauses {
        let mut equalities = clause.premises.clone();
        equalities.extend((clause.kind == 3).then(|| clause.conclusion));
        let all = closed(base.clone(), &equalities);
        let follows = clause.kind == 2 && refuted(&all, &[clause.conclusion]);
        need(follows || refuted(&all, &different), "a clause that does not follow from A")?;
    }
    Ok(())
}

/// Whether B is inconsistent once every clause whose premises hold has given its conclusion.
fn judge_b(classes: &Classes, literals: &[u8], clauses: &[Horn]) -> Result<(), String> {
    let mut all = closed(classes.clone(), &sides(literals, 2, 1));
    let mut different = sides(literals, 2, 2);
    let mut waiting: Vec<&Horn> = clauses.iter().collect();
    let mut refuted_by_false = false;
    loop {
        let before = waiting.len();
        waiting.retain(|clause| {
            let holds = clause.premises.iter().all(|&(x, y)| all.same(x, y));
            match clause.kind {
                _ if !holds => return true,
                2 => all = closed(all.clone(), &[clause.conclusion]),
                3 => different.push(clause.conclusion),
                _ => refuted_by_false = true,
            }
            false
        });
        if refuted_by_false || refuted(&all, &different) {
            return Ok(());
        }
        need(waiting.len() < before, "B and the clauses are consistent")?;
    }
}

/// What is wrong with an answer that is not a refusal.
pub fn judge(terms: &[u8], literals: &[u8], numbers: &Numbers, buffers: [&mut [u8]; 3]) -> Result<(), String> {
    let [partition, added, clauses] = buffers;
    match numbers.verdict {
        CONSISTENT => judge_partition(terms, literals, partition),
        INCONSISTENT => {
            judge_critical(terms, literals, numbers.disequality)?;
            let records = [terms, &added[..16 * numbers.added]].concat();
            judge_added(&records, terms.len() / 16)?;
            let clauses = read_clauses(&clauses[..8 * numbers.records])?;
            let classes = Classes::new(&records);
            judge_words(&classes, literals, &clauses)?;
            judge_a(&classes, literals, &clauses)?;
            judge_b(&classes, literals, &clauses)
        }
        _ => Ok(()),
    }
}
