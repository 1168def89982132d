//! Books, ways and terms as rows of words: reading and writing.
use crate::terms::{Node, Term, Terms};

pub type Sides = (Term, Term);

#[derive(Clone)]
pub struct Book {
    pub parts: Vec<u32>,
    pub ranks: Vec<u32>,
    pub equations: Vec<Sides>,
    pub rules: Vec<Sides>,
}

pub type Ways = Vec<Vec<Term>>;

struct Words<'a> {
    rest: &'a [u32],
}

impl Words<'_> {
    fn next(&mut self) -> Option<u32> {
        let (&first, rest) = self.rest.split_first()?;
        self.rest = rest;
        Some(first)
    }

    fn take(&mut self, n: u32) -> Option<Vec<u32>> {
        (0..n).map(|_| self.next()).collect()
    }

    // A term with letters below `limit`.
    fn term(&mut self, terms: &mut Terms, parts: &[u32], limit: u64) -> Option<Term> {
        let (kind, number) = (self.next()?, self.next()?);
        match kind {
            0 if u64::from(number) < limit => Some(terms.letter(number)),
            1 => {
                let count = *parts.get(number as usize)?;
                let inner: Option<Vec<Term>> = (0..count).map(|_| self.term(terms, parts, limit)).collect();
                Some(terms.sign(number, inner?))
            }
            _ => None,
        }
    }

    fn sides(&mut self, terms: &mut Terms, parts: &[u32]) -> Option<Sides> {
        let left = self.term(terms, parts, 16)?;
        let right = self.term(terms, parts, 16)?;
        (terms.size(left) <= 32 && terms.size(right) <= 32).then_some((left, right))
    }
}

pub fn read_book(terms: &mut Terms, words: &[u32]) -> Option<Book> {
    let mut words = Words { rest: words };
    let signs = words.next().filter(|n| (1..=32).contains(n))?;
    let parts = words.take(signs)?;
    let ranks = words.take(signs)?;
    let distinct = (0..ranks.len()).all(|i| !ranks[..i].contains(&ranks[i]));
    if parts.iter().any(|&n| n > 4) || !distinct {
        return None;
    }
    let equations = words.next().filter(|&n| n <= 64)?;
    let rules = words.next().filter(|&n| n <= 64)?;
    let equations: Option<Vec<Sides>> = (0..equations).map(|_| words.sides(terms, &parts)).collect();
    let equations = equations?;
    let rules: Option<Vec<Sides>> = (0..rules).map(|_| words.sides(terms, &parts)).collect();
    let rules = rules?;
    words.rest.is_empty().then_some(Book { parts, ranks, equations, rules })
}

pub fn read_ways(terms: &mut Terms, book: &Book, words: &[u32]) -> Option<Ways> {
    let mut words = Words { rest: words };
    let mut ways = Vec::new();
    for _ in &book.rules {
        let count = words.next()?;
        let way: Option<Vec<Term>> = (0..count).map(|_| words.term(terms, &book.parts, 1 << 32)).collect();
        ways.push(way?);
    }
    words.rest.is_empty().then_some(ways)
}

/// A term to be compared: of the book's signs, with letters below 16.
pub fn read_term(terms: &mut Terms, book: &Book, words: &[u32]) -> Option<Term> {
    let mut words = Words { rest: words };
    let t = words.term(terms, &book.parts, 16)?;
    words.rest.is_empty().then_some(t)
}

pub fn write_term(terms: &Terms, t: Term, row: &mut Vec<u32>) {
    match terms.node(t) {
        Node::Letter(x) => row.extend([0, *x]),
        Node::Sign(f, parts) => {
            row.extend([1, *f]);
            parts.iter().for_each(|&p| write_term(terms, p, row));
        }
    }
}

pub fn write_book(terms: &Terms, book: &Book) -> Vec<u32> {
    let mut row = vec![book.parts.len() as u32];
    row.extend(&book.parts);
    row.extend(&book.ranks);
    row.extend([book.equations.len() as u32, book.rules.len() as u32]);
    for &(left, right) in book.equations.iter().chain(&book.rules) {
        write_term(terms, left, &mut row);
        write_term(terms, right, &mut row);
    }
    row
}

pub fn write_ways(terms: &Terms, ways: &Ways) -> Vec<u32> {
    let mut row = Vec::new();
    for way in ways {
        row.push(way.len() as u32);
        way.iter().for_each(|&t| write_term(terms, t, &mut row));
    }
    row
}
