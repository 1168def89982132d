//! Judges books by trying everything: all steps, in all orders, from all terms of up to nine letters and signs.
use crate::order::Order;
use crate::rows::{Book, Sides, Ways, read_book, read_ways};
use crate::terms::{Bindings, Node, Term, Terms};
use std::collections::HashMap;
use std::fmt;
use std::rc::Rc;

pub const NINE: u64 = 9;

// What is followed: terms up to this size, and so many of them; but fewer where the answer is certain without all terms of nine letters and
// signs, or where these are too many anyway.
const MOST_SIZE: u64 = 400;
const MOST_TERMS: usize = 600_000;
const FEWER_TERMS: usize = 100_000;
const FEW_SIGNS: usize = 4;

// Where there are more terms of a size, no larger ones are made.
const MOST_OF_SIZE: usize = 50_000;

#[derive(Clone, PartialEq, Debug)]
pub enum Verdict {
    NoBook,
    Up(usize),
    Apart,
    Lost(usize),
    Stray,
    Settles,
    /// Nine letters and signs are too few to tell. It is `apart` or the other; where there is no other, anything but `up` and `no book`.
    Undecided(Option<Box<Verdict>>),
}

impl fmt::Display for Verdict {
    fn fmt(&self, out: &mut fmt::Formatter<'_>) -> fmt::Result {
        match self {
            Verdict::NoBook => write!(out, "no book"),
            Verdict::Up(n) => write!(out, "up {n}"),
            Verdict::Apart => write!(out, "apart"),
            Verdict::Lost(n) => write!(out, "lost {n}"),
            Verdict::Stray => write!(out, "stray"),
            Verdict::Settles => write!(out, "settles"),
            Verdict::Undecided(Some(other)) => write!(out, "undecided,apart,{other}"),
            Verdict::Undecided(None) => write!(out, "undecided,apart,lost,stray,settles"),
        }
    }
}

/// To how many terms at which nothing can be done do steps lead?
#[derive(Clone, Copy, PartialEq, Debug)]
pub enum Ends {
    One(Term),
    Several,
    /// There are too many terms on the way, or too large ones.
    Unknown,
}

/// How many letters and signs the largest of some terms has, as far as they were followed: where that was not all, at least so many.
#[derive(Clone, Copy)]
pub struct Largest {
    pub size: u64,
    pub all: bool,
}

impl Largest {
    /// Of no terms, since nothing has to be followed.
    pub const NONE: Largest = Largest { size: 0, all: true };

    pub fn or(self, other: Largest) -> Largest {
        Largest { size: self.size.max(other.size), all: self.all && other.all }
    }
}

impl fmt::Display for Largest {
    fn fmt(&self, out: &mut fmt::Formatter<'_>) -> fmt::Result {
        write!(out, "{}{}", self.size, if self.all { "" } else { "+" })
    }
}

/// What is known of all terms to which steps lead from one, itself among them.
#[derive(Clone, Copy)]
pub struct Walk {
    pub ends: Ends,
    pub largest: Largest,
}

/// Follows the rules of a book from terms.
pub struct Follower {
    rules: Vec<Sides>,
    steps: HashMap<Term, Rc<[Term]>>,
    walks: HashMap<Term, Walk>,
    most: usize,
}

impl Follower {
    pub fn new(rules: Vec<Sides>) -> Self {
        Follower { rules, steps: HashMap::new(), walks: HashMap::new(), most: MOST_TERMS }
    }

    /// All terms to which one step leads.
    fn steps(&mut self, terms: &mut Terms, t: Term) -> Rc<[Term]> {
        if let Some(known) = self.steps.get(&t) {
            return known.clone();
        }
        let mut all = Vec::new();
        for &(left, right) in &self.rules {
            let mut bindings = Bindings::new();
            if terms.matches(left, t, &mut bindings) {
                all.push(terms.put(right, &bindings));
            }
        }
        for (i, part) in terms.parts(t).to_vec().into_iter().enumerate() {
            for &u in self.steps(terms, part).iter() {
                all.push(terms.with_part(t, i, u));
            }
        }
        let all: Rc<[Term]> = all.into();
        self.steps.insert(t, all.clone());
        all
    }

    /// Whether no more terms are followed than those that are known.
    fn is_full(&self) -> bool {
        self.walks.len() > self.most
    }

    pub fn walk(&mut self, terms: &mut Terms, t: Term) -> Walk {
        if let Some(&known) = self.walks.get(&t) {
            return known;
        }
        let size = terms.size(t);
        if size > MOST_SIZE || self.is_full() {
            return Walk { ends: Ends::Unknown, largest: Largest { size, all: false } };
        }
        let mut found = None;
        let mut largest = Largest { size, all: true };
        for &u in self.steps(terms, t).iter() {
            let walk = self.walk(terms, u);
            largest = largest.or(walk.largest);
            found = Some(match (found, walk.ends) {
                (None, ends) => ends,
                (Some(Ends::Several), _) | (_, Ends::Several) => Ends::Several,
                (Some(Ends::One(v)), Ends::One(w)) if v != w => Ends::Several,
                (Some(Ends::One(v)), Ends::One(_)) => Ends::One(v),
                _ => Ends::Unknown,
            });
        }
        let walk = Walk { ends: found.unwrap_or(Ends::One(t)), largest };
        self.walks.insert(t, walk);
        walk
    }

    pub fn ends(&mut self, terms: &mut Terms, t: Term) -> Ends {
        self.walk(terms, t).ends
    }
}

/// All terms of a size, with the letters numbered as they come up: so no two that differ in the letters' names only.
struct Enumerator<'a> {
    parts: &'a [u32],
    known: HashMap<(u64, u32), Rc<[(Term, u32)]>>,
}

impl Enumerator<'_> {
    // Where `used` letters have come up before. Each term with how many have come up after it.
    fn of_size(&mut self, terms: &mut Terms, size: u64, used: u32) -> Rc<[(Term, u32)]> {
        if let Some(known) = self.known.get(&(size, used)) {
            return known.clone();
        }
        let mut all = Vec::new();
        if size == 1 {
            all.extend((0..=used).map(|x| (terms.letter(x), used.max(x + 1))));
        }
        for f in 0..self.parts.len() {
            for (parts, used) in self.lists(terms, self.parts[f], size - 1, used) {
                all.push((terms.sign(f as u32, parts), used));
            }
        }
        let all: Rc<[(Term, u32)]> = all.into();
        self.known.insert((size, used), all.clone());
        all
    }

    // Lists of terms, of a size together.
    fn lists(&mut self, terms: &mut Terms, count: u32, size: u64, used: u32) -> Vec<(Vec<Term>, u32)> {
        if count == 0 {
            return if size == 0 { vec![(Vec::new(), used)] } else { Vec::new() };
        }
        let mut all = Vec::new();
        for first in 1..=size.saturating_sub(u64::from(count) - 1) {
            for &(t, used) in self.of_size(terms, first, used).iter() {
                for (mut rest, used) in self.lists(terms, count - 1, size - first, used) {
                    rest.insert(0, t);
                    all.push((rest, used));
                }
            }
        }
        all
    }
}

/// The terms at which two rules meet. `None` stands for one that is too large to be made.
pub fn peaks(terms: &mut Terms, rules: &[Sides]) -> Vec<Option<Term>> {
    let mut all = Vec::new();
    for (i, &(left, _)) in rules.iter().enumerate() {
        for (path, part) in terms.places(left) {
            if matches!(terms.node(part), Node::Letter(_)) {
                continue;
            }
            for (j, &(other, _)) in rules.iter().enumerate() {
                if i == j && path.is_empty() {
                    continue;
                }
                let other = renamed(terms, other);
                match terms.unify(part, other) {
                    Ok(Some(put)) => {
                        let peak = put.iter().fold(left, |t, bindings| terms.put(t, bindings));
                        all.push(Some(peak));
                    }
                    Ok(None) => {}
                    Err(_) => all.push(None),
                }
            }
        }
    }
    all
}

/// The term with other letters than any book's.
pub fn renamed(terms: &mut Terms, t: Term) -> Term {
    let letters = terms.letters(t);
    let bindings = letters.into_iter().map(|x| (x, terms.letter(x + 100))).collect();
    terms.put(t, &bindings)
}

/// Whether one equation at one place leads from t to u, either way round.
fn one_step(terms: &Terms, equations: &[Sides], t: Term, u: Term) -> bool {
    let fits = |a: Term, b: Term| {
        let mut bindings = Bindings::new();
        terms.matches(a, t, &mut bindings) && terms.matches(b, u, &mut bindings)
    };
    if equations.iter().any(|&(left, right)| fits(left, right) || fits(right, left)) {
        return true;
    }
    match (terms.node(t), terms.node(u)) {
        (Node::Sign(f, ps), Node::Sign(g, qs)) if f == g => (0..ps.len()).any(|i| {
            let same_elsewhere = (0..ps.len()).all(|j| j == i || ps[j] == qs[j]);
            same_elsewhere && one_step(terms, equations, ps[i], qs[i])
        }),
        _ => false,
    }
}

fn ways_show(terms: &Terms, book: &Book, ways: &Ways) -> bool {
    book.rules.iter().zip(ways).all(|(&(left, right), way)| {
        let mut at = left;
        for &t in way {
            if !one_step(terms, &book.equations, at, t) {
                return false;
            }
            at = t;
        }
        at == right
    })
}

pub struct Judged {
    pub verdict: Verdict,
    pub book: Option<Book>,
    /// The largest term to which steps lead from a side of an equation or from a place where two rules meet. None is wanted where there is no
    /// book or a rule goes up.
    pub largest: Largest,
}

pub fn judge(terms: &mut Terms, book_words: &[u32], way_words: &[u32]) -> Judged {
    let Some(book) = read_book(terms, book_words) else {
        return Judged { verdict: Verdict::NoBook, book: None, largest: Largest::NONE };
    };
    let mut order = Order::new(&book.ranks);
    if let Some(n) = book.rules.iter().position(|&(left, right)| !order.greater(terms, left, right)) {
        return Judged { verdict: Verdict::Up(n), book: Some(book), largest: Largest::NONE };
    }
    let mut follower = Follower::new(book.rules.clone());
    let verdict = judge_rules(terms, &book, &mut follower, way_words);
    let largest = largest(terms, &book, &mut follower);
    Judged { verdict, book: Some(book), largest }
}

// A rule meets itself at its own top, and so the left sides are among the places where two rules meet.
fn largest(terms: &mut Terms, book: &Book, follower: &mut Follower) -> Largest {
    let sides = book.equations.iter().flat_map(|&(left, right)| [left, right]);
    let mut all: Vec<Option<Term>> = sides.chain(book.rules.iter().map(|&(left, _)| left)).map(Some).collect();
    all.extend(peaks(terms, &book.rules));
    let largest = all.into_iter().map(|t| t.map_or(Largest { size: 0, all: false }, |t| follower.walk(terms, t).largest));
    largest.fold(Largest::NONE, Largest::or)
}

// Where all rules go down.
fn judge_rules(terms: &mut Terms, book: &Book, follower: &mut Follower, way_words: &[u32]) -> Verdict {
    let Some(certain) = one_end(terms, book, follower) else {
        return Verdict::Apart;
    };
    let other = if_one_end(terms, book, follower, way_words);
    match other {
        Some(Verdict::Apart) => Verdict::Apart,
        Some(other) if certain => other,
        other => Verdict::Undecided(other.map(Box::new)),
    }
}

// Whether it is certain that all that comes from one term meets; `None` if a term has two ends. It is certain if no term at which two rules
// meet has more than nine letters and signs, and all of these have one end.
fn one_end(terms: &mut Terms, book: &Book, follower: &mut Follower) -> Option<bool> {
    let mut certain = true;
    for peak in peaks(terms, &book.rules) {
        let ends = peak.map_or(Ends::Unknown, |peak| follower.ends(terms, peak));
        match ends {
            Ends::One(_) => certain &= peak.is_some_and(|peak| terms.size(peak) <= NINE),
            Ends::Several => return None,
            Ends::Unknown => certain = false,
        }
    }
    if certain || book.parts.len() > FEW_SIGNS {
        follower.most = FEWER_TERMS;
    }
    let several = some_has_several(terms, book, follower);
    follower.most = MOST_TERMS;
    assert!(!(several && certain), "a term with two ends, though all terms at which two rules meet have one");
    (!several).then_some(certain)
}

// Whether a term of up to nine letters and signs is found that has several ends.
fn some_has_several(terms: &mut Terms, book: &Book, follower: &mut Follower) -> bool {
    let mut enumerator = Enumerator { parts: &book.parts, known: HashMap::new() };
    for size in 1..=NINE {
        let all = enumerator.of_size(terms, size, 0);
        for &(t, _) in all.iter() {
            if follower.ends(terms, t) == Ends::Several {
                return true;
            }
            if follower.is_full() {
                return false;
            }
        }
        if all.len() > MOST_OF_SIZE {
            return false;
        }
    }
    false
}

// What is to be said if all that comes from one term meets, if that can be told; `Apart` if a side of an equation shows the contrary.
fn if_one_end(terms: &mut Terms, book: &Book, follower: &mut Follower, way_words: &[u32]) -> Option<Verdict> {
    for (n, &(left, right)) in book.equations.iter().enumerate() {
        match (follower.ends(terms, left), follower.ends(terms, right)) {
            (Ends::Several, _) | (_, Ends::Several) => return Some(Verdict::Apart),
            (Ends::One(t), Ends::One(u)) if t == u => {}
            (Ends::One(_), Ends::One(_)) => return Some(Verdict::Lost(n)),
            _ => return None,
        }
    }
    match read_ways(terms, book, way_words) {
        Some(ways) if ways_show(terms, book, &ways) => Some(Verdict::Settles),
        _ => Some(Verdict::Stray),
    }
}
