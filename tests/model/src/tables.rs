//! The two tables: rows 1 to 6 of the refusals, and the records of sound tables.

pub const TERM_BYTES: usize = 16;
pub const LITERAL_BYTES: usize = 8;
pub const MOST_TERMS: usize = 256;
pub const MOST_LITERALS: usize = 1024;
pub const A: u8 = 1;
pub const B: u8 = 2;

#[derive(Clone, Copy, PartialEq, Eq, Debug)]
pub struct Refusal {
    pub number: usize,
    pub place: usize,
}

#[derive(Clone, Copy, PartialEq, Eq)]
pub struct Term {
    pub symbol: u16,
    pub arity: usize,
    pub row: [u16; 4],
}

#[derive(Clone, Copy)]
pub struct Literal {
    pub side: u8,
    pub equal: bool,
    pub left: usize,
    pub right: usize,
}

pub struct Tables {
    pub terms: Vec<Term>,
    pub literals: Vec<Literal>,
}

impl Term {
    pub fn arguments(&self) -> &[u16] {
        &self.row[..self.arity]
    }

    pub fn record(&self) -> [u8; TERM_BYTES] {
        let mut bytes = [0; TERM_BYTES];
        bytes[..2].copy_from_slice(&self.symbol.to_le_bytes());
        bytes[2] = self.arity as u8;
        for (i, argument) in self.row.iter().enumerate() {
            bytes[4 + 2 * i..6 + 2 * i].copy_from_slice(&argument.to_le_bytes());
        }
        bytes
    }
}

pub fn number(bytes: &[u8], at: usize) -> u16 {
    u16::from_le_bytes([bytes[at], bytes[at + 1]])
}

fn refuse(number: usize, place: Option<usize>) -> Result<(), Refusal> {
    match place {
        Some(place) => Err(Refusal { number, place }),
        None => Ok(()),
    }
}

fn term(record: &[u8]) -> Term {
    Term {
        symbol: number(record, 0),
        arity: record[2] as usize,
        row: [number(record, 4), number(record, 6), number(record, 8), number(record, 10)],
    }
}

fn breaks_layout(place: usize, record: &[u8]) -> bool {
    if record[2] > 4 || record[3] != 0 || record[12..] != [0; 4] {
        return true;
    }
    let term = term(record);
    term.arguments().iter().any(|&x| x as usize >= place) || term.row[term.arity..].iter().any(|&x| x != 0)
}

/// The first record whose symbol had another arity before. All records before it agree, so the first one of its symbol decides.
fn other_arity(terms: &[Term]) -> Option<usize> {
    let mut order: Vec<(u16, usize)> = terms.iter().enumerate().map(|(i, t)| (t.symbol, i)).collect();
    order.sort_unstable();
    let mut first = 0;
    let mut clash = None;
    for at in 1..order.len() {
        if order[at].0 != order[first].0 {
            first = at;
        } else if terms[order[at].1].arity != terms[order[first].1].arity {
            clash = clash.into_iter().chain(Some(order[at].1)).min();
        }
    }
    clash
}

/// The first record that equals an earlier one, in all its bytes.
fn repeated(terms: &[u8]) -> Option<usize> {
    let mut order: Vec<(&[u8], usize)> = terms.chunks(TERM_BYTES).zip(0..).collect();
    order.sort_unstable();
    order.windows(2).filter(|two| two[0].0 == two[1].0).map(|two| two[1].1).min()
}

fn breaks_literal(record: &[u8], count: usize) -> bool {
    let named = |byte: u8| byte == 1 || byte == 2;
    let term = |at: usize| (number(record, at) as usize) < count;
    !(named(record[0]) && named(record[1]) && term(2) && term(4) && record[6..] == [0; 2])
}

fn literal(record: &[u8]) -> Literal {
    Literal { side: record[0], equal: record[1] == 1, left: number(record, 2) as usize, right: number(record, 4) as usize }
}

/// Rows 1 to 6 in their order, each over its whole table before the next.
pub fn read(terms: &[u8], literals: &[u8]) -> Result<Tables, Refusal> {
    let first = |bad: [bool; 2]| bad.iter().position(|&b| b);
    let (many, most) = (terms.len() / TERM_BYTES, literals.len() / LITERAL_BYTES);
    refuse(1, first([terms.len() % TERM_BYTES != 0, literals.len() % LITERAL_BYTES != 0]))?;
    refuse(2, first([many > MOST_TERMS, most > MOST_LITERALS]))?;
    refuse(3, terms.chunks(TERM_BYTES).zip(0..).position(|(r, i)| breaks_layout(i, r)))?;
    let read_terms: Vec<Term> = terms.chunks(TERM_BYTES).map(term).collect();
    refuse(4, other_arity(&read_terms))?;
    refuse(5, repeated(terms))?;
    refuse(6, literals.chunks(LITERAL_BYTES).position(|r| breaks_literal(r, many)))?;
    Ok(Tables { terms: read_terms, literals: literals.chunks(LITERAL_BYTES).map(literal).collect() })
}
