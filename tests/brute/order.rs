//! The lexicographic path order, by its definition.
use crate::terms::{Node, Term, Terms};
use std::collections::HashMap;

pub struct Order<'a> {
    ranks: &'a [u32],
    known: HashMap<(Term, Term), bool>,
}

impl<'a> Order<'a> {
    pub fn new(ranks: &'a [u32]) -> Self {
        Order { ranks, known: HashMap::new() }
    }

    pub fn greater(&mut self, terms: &Terms, s: Term, t: Term) -> bool {
        if let Some(&known) = self.known.get(&(s, t)) {
            return known;
        }
        let answer = self.by_part(terms, s, t) || self.by_sign(terms, s, t) || self.by_order(terms, s, t);
        self.known.insert((s, t), answer);
        answer
    }

    // One of the parts of s is t, or is greater.
    fn by_part(&mut self, terms: &Terms, s: Term, t: Term) -> bool {
        terms.parts(s).iter().any(|&p| p == t || self.greater(terms, p, t))
    }

    // t is a sign of lower rank, and s is greater than each of its parts.
    fn by_sign(&mut self, terms: &Terms, s: Term, t: Term) -> bool {
        match (terms.node(s), terms.node(t)) {
            (Node::Sign(f, _), Node::Sign(g, us)) if self.rank(*g) < self.rank(*f) => us.iter().all(|&u| self.greater(terms, s, u)),
            _ => false,
        }
    }

    // The same sign: of the first parts that differ that of s is greater, and s is greater than each part of t.
    fn by_order(&mut self, terms: &Terms, s: Term, t: Term) -> bool {
        match (terms.node(s), terms.node(t)) {
            (Node::Sign(f, ss), Node::Sign(g, us)) if f == g => match ss.iter().zip(us).find(|(p, q)| p != q) {
                Some((&p, &q)) => self.greater(terms, p, q) && us.iter().all(|&u| self.greater(terms, s, u)),
                None => false,
            },
            _ => false,
        }
    }

    fn rank(&self, f: u32) -> u32 {
        self.ranks[f as usize]
    }
}
