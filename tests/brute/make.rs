//! Makes random books of few signs, always the same ones, with ways and pairs of terms. Some get a fault on purpose. And makes pairs for
//! books that there are.
use crate::compare::{Links, fillers};
use crate::judge::renamed;
use crate::order::Order;
use crate::rows::{Book, Sides, Ways, read_book, read_term, read_ways, write_book, write_term, write_ways};
use crate::terms::{Bindings, Node, Term, Terms};
use crate::text::{read_text, write_pair, write_text};
use std::fs;

const PAIRS: usize = 8;

type Pair = [Vec<u32>; 2];

/// Numbers by chance (splitmix), always the same for a seed.
pub struct Random(u64);

impl Random {
    fn next(&mut self) -> u64 {
        self.0 = self.0.wrapping_add(0x9e37_79b9_7f4a_7c15);
        let mut z = self.0;
        z = (z ^ (z >> 30)).wrapping_mul(0xbf58_476d_1ce4_e5b9);
        z = (z ^ (z >> 27)).wrapping_mul(0x94d0_49bb_1331_11eb);
        z ^ (z >> 31)
    }

    pub fn below(&mut self, n: usize) -> usize {
        (self.next() % n as u64) as usize
    }

    pub fn one_in(&mut self, n: usize) -> bool {
        self.below(n) == 0
    }

    pub fn pick<T: Copy>(&mut self, from: &[T]) -> T {
        from[self.below(from.len())]
    }
}

#[derive(Clone, Copy)]
enum Kind {
    /// The equations as rules.
    Plain,
    /// Also rules from terms at which two rules meet.
    Completed,
    /// A rule left out.
    Dropped,
    /// A way broken.
    Broken,
    /// A rule that does not follow.
    Added,
    /// A rule that may go up.
    Turned,
    /// A book that may be beyond the limits.
    Swollen,
    /// Words that may be no book.
    Garbled,
}

// One book in thirty for each: the kinds come in turn, and so do the variants of each kind.
const KINDS: [(Kind, usize); 8] = [
    (Kind::Plain, 6),
    (Kind::Completed, 5),
    (Kind::Dropped, 4),
    (Kind::Broken, 6),
    (Kind::Added, 1),
    (Kind::Turned, 4),
    (Kind::Swollen, 2),
    (Kind::Garbled, 2),
];

// The kind of book n, and which book of this kind it is.
fn kind_of(n: usize) -> (Kind, usize) {
    let turn: usize = KINDS.iter().map(|(_, times)| times).sum();
    let mut place = n % turn;
    for (kind, times) in KINDS {
        if place < times {
            return (kind, n / turn * times + place);
        }
        place -= times;
    }
    unreachable!()
}

pub struct Maker {
    pub random: Random,
    pub terms: Terms,
    pub book: Book,
    pub ways: Ways,
}

/// Writes `count` random books.
pub fn make(folder: &str, count: usize) -> Result<(), String> {
    for n in 0..count {
        let book = Book { parts: Vec::new(), ranks: Vec::new(), equations: Vec::new(), rules: Vec::new() };
        let mut maker = Maker { random: Random(n as u64), terms: Terms::default(), book, ways: Vec::new() };
        let (kind, variant) = kind_of(n);
        let (book, ways, pairs) = maker.make(kind, variant);
        write(folder, &format!("{n:03}"), &book, &ways, &pairs)?;
    }
    Ok(())
}

/// Writes the book that a text in the readable form gives, with pairs of its terms.
pub fn take(folder: &str, name: &str, text: &str) -> Result<(), String> {
    let mut terms = Terms::default();
    let (book, ways) = read_text(&mut terms, text)?;
    let seed = text.bytes().fold(0, |n: u64, byte| n.wrapping_mul(31).wrapping_add(u64::from(byte)));
    let mut maker = Maker { random: Random(seed), terms, book, ways };
    let pairs = maker.pairs();
    let (book, ways) = (write_book(&maker.terms, &maker.book), write_ways(&maker.terms, &maker.ways));
    write(folder, name, &book, &ways, &pairs)
}

fn write(folder: &str, name: &str, book: &[u32], ways: &[u32], pairs: &[Pair]) -> Result<(), String> {
    let pair_lines: String = pairs.iter().map(|[left, right]| format!("{} | {}\n", line(left), line(right))).collect();
    let mut files = vec![("rows", format!("{}\n{}\n", line(book), line(ways))), ("pairs", pair_lines)];
    match readable(book, ways, pairs) {
        Ok((book, pairs)) => files.extend([("book", book), ("names", pairs)]),
        Err(reason) => files.push(("unwritten", format!("{reason}\n"))),
    }
    for (ending, text) in files {
        let name = format!("{folder}/{name}.{ending}");
        fs::write(&name, text).map_err(|e| format!("{name}: {e}"))?;
    }
    Ok(())
}

// The readable form of rows and of pairs, or why there is none. A pair of which one is no term is a comment.
fn readable(book: &[u32], ways: &[u32], pairs: &[Pair]) -> Result<(String, String), &'static str> {
    let mut terms = Terms::default();
    let book = read_book(&mut terms, book).ok_or("the words are no book")?;
    let ways = read_ways(&mut terms, &book, ways).ok_or("the words are no ways")?;
    let text = write_text(&terms, &book, &ways).ok_or("a way has a letter that no text can name")?;
    let mut lines = String::new();
    for [left, right] in pairs {
        match (read_term(&mut terms, &book, left), read_term(&mut terms, &book, right)) {
            (Some(t), Some(u)) => lines += &write_pair(&terms, t, u),
            _ => lines += "# no term\n",
        }
    }
    Ok((text, lines))
}

fn line(words: &[u32]) -> String {
    let words: Vec<String> = words.iter().map(u32::to_string).collect();
    words.join(" ")
}

impl Maker {
    // The rows of a book and its ways, and pairs of terms.
    fn make(&mut self, kind: Kind, variant: usize) -> (Vec<u32>, Vec<u32>, Vec<Pair>) {
        self.signs();
        self.equations();
        let complete = match kind {
            Kind::Completed | Kind::Added => true,
            Kind::Dropped | Kind::Broken => self.random.one_in(2),
            _ => false,
        };
        if complete {
            self.complete();
        }
        let pairs = self.pairs();
        match kind {
            Kind::Plain | Kind::Completed | Kind::Garbled => {}
            Kind::Dropped => self.drop_rule(),
            Kind::Broken => self.break_way(variant),
            Kind::Added => self.add_rule(),
            Kind::Turned => self.turn_rule(variant),
            Kind::Swollen => self.swell(variant),
        }
        let mut book = write_book(&self.terms, &self.book);
        let mut ways = write_ways(&self.terms, &self.ways);
        match kind {
            Kind::Garbled => self.garble(&mut book, variant),
            Kind::Broken => self.garble_ways(&mut ways, variant),
            _ => {}
        }
        (book, ways, pairs)
    }

    // 2 to 4 signs, at least one of them with parts.
    fn signs(&mut self) {
        let count = 2 + self.random.below(3);
        self.book.parts = (0..count).map(|_| self.random.pick(&[0, 0, 1, 1, 1, 2, 2, 2])).collect();
        if self.book.parts.iter().all(|&n| n == 0) {
            self.book.parts[0] = 1;
        }
        // Three signs of two parts make too many terms of nine.
        while self.book.parts.iter().filter(|&&n| n == 2).count() > 2 {
            let place = self.book.parts.iter().position(|&n| n == 2).unwrap_or(0);
            self.book.parts[place] = 1;
        }
        let spread = if self.random.one_in(3) { 4_000_000_000 } else { count };
        while self.book.ranks.len() < count {
            let rank = self.random.below(spread) as u32;
            if !self.book.ranks.contains(&rank) {
                self.book.ranks.push(rank);
            }
        }
    }

    // A term of at most so many letters and signs, with letters below `letters`.
    pub fn term(&mut self, most: usize, letters: u32) -> Term {
        let fitting: Vec<usize> = (0..self.book.parts.len()).filter(|&f| (self.book.parts[f] as usize) < most).collect();
        if letters > 0 && (fitting.is_empty() || most == 1 && self.random.one_in(2) || self.random.one_in(5)) {
            let x = self.random.below(letters as usize) as u32;
            return self.terms.letter(x);
        }
        if fitting.is_empty() {
            return self.terms.letter(0);
        }
        let f = self.random.pick(&fitting);
        self.sign_term(f, most, letters)
    }

    pub fn sign_term(&mut self, f: usize, most: usize, letters: u32) -> Term {
        let count = self.book.parts[f] as usize;
        let mut left = most - 1;
        let mut parts = Vec::new();
        for i in 0..count {
            let reserved = count - 1 - i;
            let share = if reserved == 0 { left } else { 1 + self.random.below(left - reserved) };
            let part = self.term(share, letters);
            left -= self.terms.size(part) as usize;
            parts.push(part);
        }
        self.terms.sign(f as u32, parts)
    }

    fn term_up_to(&mut self, most: usize) -> Term {
        let most = 1 + self.random.below(most);
        self.term(most, 2)
    }

    // A sign with a part of the same sign: a rule with such a left side often meets itself.
    fn nested_term(&mut self) -> Term {
        let signs: Vec<usize> = (0..self.book.parts.len()).filter(|&f| self.book.parts[f] > 0).collect();
        let f = self.random.pick(&signs);
        let (outer, inner) = (self.sign_term(f, 4, 2), self.sign_term(f, 4, 2));
        let place = self.random.below(self.book.parts[f] as usize);
        self.terms.with_part(outer, place, inner)
    }

    // 1 to 3 equations, most of which go down one way or the other, and then are rules with a way of one term.
    fn equations(&mut self) {
        let count = 1 + self.random.below(3);
        for _ in 0..100 {
            if self.book.equations.len() == count {
                break;
            }
            let left = if self.random.one_in(4) { self.nested_term() } else { self.term_up_to(5) };
            let right = self.term_up_to(4);
            if left == right {
                continue;
            }
            if let Some((greater, less)) = self.oriented(left, right) {
                self.book.equations.push((left, right));
                self.book.rules.push((greater, less));
                self.ways.push(vec![less]);
            } else if self.random.one_in(30) {
                self.book.equations.push((left, right));
            }
        }
    }

    pub fn oriented(&self, t: Term, u: Term) -> Option<Sides> {
        let mut order = Order::new(&self.book.ranks);
        if order.greater(&self.terms, t, u) {
            Some((t, u))
        } else if order.greater(&self.terms, u, t) {
            Some((u, t))
        } else {
            None
        }
    }

    // Adds rules between the two results where rules meet that are equations. The way goes over the term from which both come.
    fn complete(&mut self) {
        let rules = self.book.rules.clone();
        for (i, &one) in rules.iter().enumerate() {
            for (path, part) in self.terms.places(one.0) {
                for (j, &other) in rules.iter().enumerate() {
                    let trivial = i == j && path.is_empty() || matches!(self.terms.node(part), Node::Letter(_));
                    if !trivial && self.book.rules.len() < 6 {
                        self.add_meeting(one, &path, part, other);
                    }
                }
            }
        }
    }

    fn add_meeting(&mut self, one: Sides, path: &[usize], part: Term, other: Sides) {
        let other = (renamed(&mut self.terms, other.0), renamed(&mut self.terms, other.1));
        let Ok(Some(put)) = self.terms.unify(part, other.0) else {
            return;
        };
        let inner = self.terms.with(one.0, path, other.1);
        let mut all = [one.0, one.1, inner];
        for t in &mut all {
            *t = put.iter().fold(*t, |t, bindings| self.terms.put(t, bindings));
        }
        let [peak, first, second] = self.with_small_letters(all);
        let fitting = self.terms.size(first).max(self.terms.size(second)) <= 12;
        if let (true, Some(rule)) = (fitting, self.oriented(first, second)) {
            if !self.book.rules.contains(&rule) {
                self.book.rules.push(rule);
                self.ways.push(vec![peak, rule.1]);
            }
        }
    }

    // The letters of the first numbered from 0 on. It has those of the others.
    fn with_small_letters(&mut self, all: [Term; 3]) -> [Term; 3] {
        let letters = self.terms.letters(all[0]);
        let bindings: Bindings = letters.iter().enumerate().map(|(n, &x)| (x, self.terms.letter(n as u32))).collect();
        all.map(|t| self.terms.put(t, &bindings))
    }

    // Pairs of terms: any two, or such that some equations lead from one to the other. One has a letter at the limit, or beyond it, and
    // few are no terms.
    fn pairs(&mut self) -> Vec<Pair> {
        let fillers = fillers(&mut self.terms, &self.book);
        let mut links = Links::new(&self.book, fillers);
        let mut pairs = Vec::new();
        for n in 0..PAIRS {
            let mut sides = [self.term(6, 2); 2];
            sides[1] = if n % 2 == 0 { self.term(6, 2) } else { self.walk(&mut links, sides[0]) };
            if n == 0 {
                let limit = self.terms.letter(15 + self.random.below(2) as u32);
                sides = sides.map(|t| self.terms.put(t, &Bindings::from([(0, limit)])));
            }
            let mut rows = [Vec::new(), Vec::new()];
            write_term(&self.terms, sides[0], &mut rows[0]);
            write_term(&self.terms, sides[1], &mut rows[1]);
            if self.random.one_in(16) {
                let (side, variant) = (self.random.below(2), self.random.below(5));
                self.garble(&mut rows[side], variant);
            }
            pairs.push(rows);
        }
        pairs
    }

    fn walk(&mut self, links: &mut Links, from: Term) -> Term {
        let mut t = from;
        for _ in 0..1 + self.random.below(6) {
            let next = links.from(&mut self.terms, t, 8);
            if next.is_empty() {
                break;
            }
            t = self.random.pick(&next);
        }
        t
    }
}
