//! Faults that are put into books on purpose, and what only looks like one. Variants are numbered, and come in turn.
use crate::make::Maker;
use crate::rows::Sides;
use crate::terms::{Bindings, Term};

impl Maker {
    pub fn drop_rule(&mut self) {
        if !self.book.rules.is_empty() {
            let n = self.random.below(self.book.rules.len());
            self.book.rules.remove(n);
            self.ways.remove(n);
        }
    }

    pub fn break_way(&mut self, variant: usize) {
        if self.ways.is_empty() {
            return;
        }
        let n = self.random.below(self.ways.len());
        let stray = self.term(5, 2);
        let way = &mut self.ways[n];
        match variant % 10 {
            0 => drop(way.pop()),
            1 => way.insert(0, stray),
            2 => drop(way.remove(0)),
            3 => way.push(way[way.len() - 1]),
            4 => drop(self.ways.pop()),
            5..=6 => self.go_round(n),
            7 => self.go_round(self.rule_with_letter_alone().unwrap_or(n)),
            // The words are garbled later.
            _ => {}
        }
    }

    pub fn garble_ways(&mut self, words: &mut Vec<u32>, variant: usize) {
        match variant % 10 {
            8 => words.push(0),
            9 => self.garble(words, variant / 10),
            _ => {}
        }
    }

    // A rule with a letter that stands on its left side only.
    fn rule_with_letter_alone(&self) -> Option<usize> {
        self.book.rules.iter().position(|&sides| self.letter_alone(sides).is_some())
    }

    fn letter_alone(&self, (left, right): Sides) -> Option<u32> {
        let both = self.terms.letters(right);
        self.terms.letters(left).into_iter().find(|x| !both.contains(x))
    }

    // The way of a rule goes to its right side, back to its left side, and on. A letter is something else at one of these stops, which is
    // right where the letter stands on this side only.
    fn go_round(&mut self, n: usize) {
        let (left, right) = self.book.rules[n];
        let other = match self.random.below(3) {
            0 => self.terms.letter(u32::MAX),
            1 => self.terms.letter(16),
            _ => self.term(2, 2),
        };
        let mut stops = [right, left];
        let (stop, letter) = match (self.letter_alone((left, right)), self.terms.letters(right).first()) {
            (Some(x), _) => (1, x),
            (None, Some(&x)) => (self.random.below(2), x),
            (None, None) => (0, 0),
        };
        stops[stop] = self.terms.put(stops[stop], &Bindings::from([(letter, other)]));
        self.ways[n].splice(0..0, stops);
    }

    // A rule that goes down. Its way claims that one equation shows it.
    pub fn add_rule(&mut self) {
        for _ in 0..20 {
            let (t, u) = (self.term(5, 2), self.term(4, 2));
            if let Some(rule) = self.oriented(t, u) {
                self.book.rules.push(rule);
                self.ways.push(vec![rule.1]);
                return;
            }
        }
    }

    pub fn turn_rule(&mut self, variant: usize) {
        if self.book.rules.is_empty() {
            return;
        }
        let n = self.random.below(self.book.rules.len());
        let (left, right) = self.book.rules[n];
        let binary = self.book.parts.iter().position(|&n| n == 2);
        self.book.rules[n] = match (variant % 8, binary) {
            (0, _) => (right, left),
            (1, _) => (left, left),
            (2, _) => (left, self.term(5, 3)),
            (3, _) => (self.term(3, 3), self.term(3, 3)),
            (case, Some(f)) => self.lexicographic(f, case % 2),
            (_, None) => (right, left),
        };
    }

    // Two terms of a sign of two parts. On the right, the part at `place` is smaller; the other is anything, or the whole left side, or
    // what was made smaller.
    fn lexicographic(&mut self, f: usize, place: usize) -> Sides {
        let left = self.sign_term(f, 6, 2);
        let large = self.terms.parts(left)[place];
        let inner = self.terms.places(large);
        let small = inner[inner.len() - 1].1;
        let any = self.term(4, 2);
        let mut parts = vec![self.random.pick(&[any, left, large]); 2];
        parts[place] = small;
        (left, self.terms.sign(f as u32, parts))
    }

    // Goes up to a limit, or one beyond it.
    pub fn swell(&mut self, variant: usize) {
        let beyond = variant % 2;
        match variant / 2 % 7 {
            0 => self.rename_letter(15 + beyond as u32),
            1 => self.lengthen(32 + beyond),
            2 => self.book.equations = self.book.equations.iter().copied().cycle().take(64 + beyond).collect(),
            3 => {
                self.book.rules = self.book.rules.iter().copied().cycle().take(64 + beyond).collect();
                self.ways = self.ways.iter().cloned().cycle().take(64 + beyond).collect();
            }
            4 => self.add_sign(4 + beyond as u32, 4_200_000_000),
            5 => self.add_sign(0, self.book.ranks[0] + beyond as u32),
            _ => (0..33).for_each(|n| self.add_sign(0, 4_200_000_000 + n)),
        }
    }

    fn add_sign(&mut self, parts: u32, rank: u32) {
        self.book.parts.push(parts);
        self.book.ranks.push(rank);
    }

    // Another name for a letter of the first equation.
    fn rename_letter(&mut self, name: u32) {
        if let Some(&(left, right)) = self.book.equations.first() {
            let letters = [self.terms.letters(left), self.terms.letters(right)].concat();
            let letter = self.terms.letter(name);
            let bindings: Bindings = letters.first().map(|&x| (x, letter)).into_iter().collect();
            self.book.equations[0] = (self.terms.put(left, &bindings), self.terms.put(right, &bindings));
        }
    }

    // An equation whose sides have so many letters and signs.
    fn lengthen(&mut self, size: usize) {
        if !self.book.parts.contains(&1) {
            self.add_sign(1, 4_200_000_000);
        }
        let f = self.book.parts.iter().position(|&n| n == 1).unwrap_or(0) as u32;
        let letter = self.terms.letter(0);
        let long = (1..size).fold(letter, |t: Term, _| self.terms.sign(f, vec![t]));
        self.book.equations.push((long, long));
    }

    pub fn garble(&mut self, words: &mut Vec<u32>, variant: usize) {
        let place = self.random.below(words.len().max(1));
        match variant % 5 {
            0 => drop(words.pop()),
            1 => words.push(self.random.below(3) as u32),
            2 if !words.is_empty() => drop(words.remove(place)),
            3 if !words.is_empty() => words[place] = self.random.pick(&[0, 1, 2, 5, 15, 16, 33, 65, u32::MAX]),
            _ => words.insert(place, self.random.below(3) as u32),
        }
    }
}
