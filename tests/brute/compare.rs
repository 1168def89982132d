//! Compares terms: by chains of equations through terms of up to nine letters and signs, and in a settled book by their ends.
use crate::judge::{Ends, Follower, Judged, Largest, NINE, Verdict};
use crate::rows::{Book, read_term};
use crate::terms::{Bindings, Node, Term, Terms};
use std::collections::{HashMap, HashSet};

// A search from one side visits so many terms.
const MOST_VISITED: usize = 20_000;

/// Uses equations both ways round, at all places.
pub struct Links {
    equations: Vec<(Term, Term)>,
    fillers: Vec<Term>,
    known: HashMap<Term, Vec<Term>>,
}

impl Links {
    /// What an equation leaves open, because a letter stands on its other side only, is filled with each of the fillers.
    pub fn new(book: &Book, fillers: Vec<Term>) -> Self {
        let both = book.equations.iter().flat_map(|&(left, right)| [(left, right), (right, left)]);
        Links { equations: both.collect(), fillers, known: HashMap::new() }
    }

    /// The terms to which one equation at one place leads, up to a size.
    pub fn from(&mut self, terms: &mut Terms, t: Term, most: u64) -> Vec<Term> {
        if let Some(known) = self.known.get(&t) {
            return known.clone();
        }
        let mut all = Vec::new();
        for &(left, right) in &self.equations {
            let mut bindings = Bindings::new();
            if !terms.matches(left, t, &mut bindings) {
                continue;
            }
            let open: Vec<u32> = terms.letters(right).into_iter().filter(|x| !bindings.contains_key(x)).collect();
            for &filler in if open.is_empty() { &self.fillers[..1] } else { &self.fillers[..] } {
                bindings.extend(open.iter().map(|&x| (x, filler)));
                all.push(terms.put(right, &bindings));
            }
        }
        for (i, part) in terms.parts(t).to_vec().into_iter().enumerate() {
            for u in self.from(terms, part, most) {
                all.push(terms.with_part(t, i, u));
            }
        }
        all.retain(|&u| terms.size(u) <= most);
        self.known.insert(t, all.clone());
        all
    }

    /// Whether a chain through terms of up to nine letters and signs is found.
    fn chain(&mut self, terms: &mut Terms, t: Term, u: Term) -> bool {
        let mut seen = [HashSet::from([t]), HashSet::from([u])];
        let mut edge = [vec![t], vec![u]];
        loop {
            if seen[0].iter().any(|v| seen[1].contains(v)) {
                return true;
            }
            // The side that has less to visit goes on.
            let side = match (edge[0].is_empty(), edge[1].is_empty()) {
                (true, true) => return false,
                (false, true) => 0,
                (true, false) => 1,
                (false, false) => usize::from(edge[1].len() < edge[0].len()),
            };
            if seen[side].len() > MOST_VISITED {
                return false;
            }
            for v in std::mem::take(&mut edge[side]) {
                for w in self.from(terms, v, NINE) {
                    if seen[side].insert(w) {
                        edge[side].push(w);
                    }
                }
            }
        }
    }
}

/// What is told of a pair: `same`, `different`, `unsettled` or `no term`; or `undecided` with the answers that are left, such as
/// `undecided,same,unsettled` where only `different` is ruled out.
pub struct Compared {
    pub answer: &'static str,
    /// The largest term to which steps lead from one of the two. None is wanted where the book does not settle or one of the two is no term.
    pub largest: Largest,
}

pub fn compare(terms: &mut Terms, judged: &Judged, pairs: &[[Vec<u32>; 2]]) -> Vec<Compared> {
    let (settles, book) = match judged {
        Judged { verdict: Verdict::Settles, book: Some(book), .. } => (true, book),
        Judged { verdict: Verdict::Undecided(other), book: Some(book), .. } if may_settle(other) => (false, book),
        _ => return pairs.iter().map(|_| Compared { answer: "unsettled", largest: Largest::NONE }).collect(),
    };
    let mut follower = Follower::new(book.rules.clone());
    let mut links = Links::new(book, fillers(terms, book));
    let compared = pairs.iter().map(|[left, right]| {
        let both = [read_term(terms, book, left), read_term(terms, book, right)];
        let answer = match both {
            [Some(t), Some(u)] => compare_terms(terms, &mut follower, &mut links, settles, t, u),
            _ if settles => "no term",
            _ => "undecided,no term,unsettled",
        };
        // No term is too large where the two rows are not both terms.
        let largest = match both {
            [Some(t), Some(u)] => follower.walk(terms, t).largest.or(follower.walk(terms, u).largest),
            _ => Largest::NONE,
        };
        Compared { answer, largest }
    });
    compared.collect()
}

fn may_settle(other: &Option<Box<Verdict>>) -> bool {
    other.as_ref().is_none_or(|other| **other == Verdict::Settles)
}

fn compare_terms(terms: &mut Terms, follower: &mut Follower, links: &mut Links, settles: bool, t: Term, u: Term) -> &'static str {
    let chain = links.chain(terms, t, u);
    let apart = match (follower.ends(terms, t), follower.ends(terms, u)) {
        (Ends::One(v), Ends::One(w)) => v != w,
        _ => false,
    };
    match (settles, chain, apart) {
        (true, true, true) => panic!("a chain between terms of a settled book whose ends differ"),
        (true, true, _) => "same",
        (true, false, true) => "different",
        (true, false, false) => "undecided,same,different",
        (false, true, _) => "undecided,same,unsettled",
        (false, false, true) => "undecided,different,unsettled",
        (false, false, false) => "undecided,same,different,unsettled",
    }
}

/// The first two letters, and the signs without parts.
pub fn fillers(terms: &mut Terms, book: &Book) -> Vec<Term> {
    let constants = (0..book.parts.len()).filter(|&f| book.parts[f] == 0);
    let mut all = vec![Node::Letter(0), Node::Letter(1)];
    all.extend(constants.map(|f| Node::Sign(f as u32, Vec::new())));
    all.into_iter().map(|node| terms.make(node)).collect()
}
