//! Terms, each kept once, so that equal terms have equal numbers.
use std::collections::HashMap;

#[derive(Clone, Copy, PartialEq, Eq, Hash, Debug)]
pub struct Term(u32);

#[derive(Clone, PartialEq, Eq, Hash)]
pub enum Node {
    Letter(u32),
    Sign(u32, Vec<Term>),
}

/// What is put for letters.
pub type Bindings = HashMap<u32, Term>;

#[derive(Default)]
pub struct Terms {
    nodes: Vec<Node>,
    sizes: Vec<u64>,
    known: HashMap<Node, Term>,
}

impl Terms {
    pub fn make(&mut self, node: Node) -> Term {
        if let Some(&t) = self.known.get(&node) {
            return t;
        }
        let t = Term(self.nodes.len() as u32);
        let size = match &node {
            Node::Letter(_) => 1,
            Node::Sign(_, parts) => parts.iter().fold(1u64, |n, &p| n.saturating_add(self.size(p))),
        };
        self.nodes.push(node.clone());
        self.sizes.push(size);
        self.known.insert(node, t);
        t
    }

    pub fn letter(&mut self, x: u32) -> Term {
        self.make(Node::Letter(x))
    }

    pub fn sign(&mut self, f: u32, parts: Vec<Term>) -> Term {
        self.make(Node::Sign(f, parts))
    }

    pub fn node(&self, t: Term) -> &Node {
        &self.nodes[t.0 as usize]
    }

    /// The parts of a sign; none of a letter.
    pub fn parts(&self, t: Term) -> &[Term] {
        match self.node(t) {
            Node::Letter(_) => &[],
            Node::Sign(_, parts) => parts,
        }
    }

    /// How many letters and signs it has.
    pub fn size(&self, t: Term) -> u64 {
        self.sizes[t.0 as usize]
    }

    /// The term with one of its parts exchanged.
    pub fn with_part(&mut self, t: Term, place: usize, part: Term) -> Term {
        match self.node(t).clone() {
            Node::Letter(_) => t,
            Node::Sign(f, mut parts) => {
                parts[place] = part;
                self.sign(f, parts)
            }
        }
    }

    /// Puts terms for letters; a letter for which there is none stays.
    pub fn put(&mut self, t: Term, bindings: &Bindings) -> Term {
        match self.node(t).clone() {
            Node::Letter(x) => bindings.get(&x).copied().unwrap_or(t),
            Node::Sign(f, parts) => {
                let parts = parts.into_iter().map(|p| self.put(p, bindings)).collect();
                self.sign(f, parts)
            }
        }
    }

    /// Extends the bindings such that they make `t` of `pattern`, if that can be done.
    pub fn matches(&self, pattern: Term, t: Term, bindings: &mut Bindings) -> bool {
        match (self.node(pattern), self.node(t)) {
            (Node::Letter(x), _) => *bindings.entry(*x).or_insert(t) == t,
            (Node::Sign(f, ps), Node::Sign(g, qs)) if f == g => ps.iter().zip(qs).all(|(&p, &q)| self.matches(p, q, bindings)),
            _ => false,
        }
    }

    /// The letters, each once, in the order in which they stand there.
    pub fn letters(&self, t: Term) -> Vec<u32> {
        fn visit(terms: &Terms, t: Term, found: &mut Vec<u32>) {
            match terms.node(t) {
                Node::Letter(x) if !found.contains(x) => found.push(*x),
                _ => terms.parts(t).iter().for_each(|&p| visit(terms, p, found)),
            }
        }
        let mut found = Vec::new();
        visit(self, t, &mut found);
        found
    }

    /// All places of the term, as the parts that lead there, with what stands there.
    pub fn places(&self, t: Term) -> Vec<(Vec<usize>, Term)> {
        let mut all = vec![(Vec::new(), t)];
        for (i, &p) in self.parts(t).iter().enumerate() {
            for (mut path, u) in self.places(p) {
                path.insert(0, i);
                all.push((path, u));
            }
        }
        all
    }

    /// The term with `u` at a place.
    pub fn with(&mut self, t: Term, path: &[usize], u: Term) -> Term {
        match path.split_first() {
            None => u,
            Some((&i, rest)) => {
                let part = self.parts(t)[i];
                let part = self.with(part, rest, u);
                self.with_part(t, i, part)
            }
        }
    }

    /// The least that is put for letters to make two terms one, in the order in which it is to be put.
    /// `Err` means that terms become too large to go on.
    pub fn unify(&mut self, a: Term, b: Term) -> Result<Option<Vec<Bindings>>, TooLarge> {
        let (mut a, mut b, mut found) = (a, b, Vec::new());
        while let Some((p, q)) = self.difference(a, b) {
            let (x, u) = match (self.node(p), self.node(q)) {
                (Node::Letter(x), _) => (*x, q),
                (_, Node::Letter(y)) => (*y, p),
                _ => return Ok(None),
            };
            if self.letters(u).contains(&x) {
                return Ok(None);
            }
            let binding = Bindings::from([(x, u)]);
            a = self.put(a, &binding);
            b = self.put(b, &binding);
            if self.size(a).max(self.size(b)) > 1000 {
                return Err(TooLarge);
            }
            found.push(binding);
        }
        Ok(Some(found))
    }

    // The first parts in which two terms differ such that one is a letter, or the signs are not the same.
    fn difference(&self, a: Term, b: Term) -> Option<(Term, Term)> {
        match (self.node(a), self.node(b)) {
            _ if a == b => None,
            (Node::Sign(f, ps), Node::Sign(g, qs)) if f == g => ps.iter().zip(qs).find_map(|(&p, &q)| self.difference(p, q)),
            _ => Some((a, b)),
        }
    }
}

pub struct TooLarge;
