//! Reads and writes books in the readable form, of which docs/BOOKS.md tells. What is read are the example books, which have no faults, and
//! so it gives no places of faults.
use crate::rows::{Book, Sides, Ways};
use crate::terms::{Node, Term, Terms};

// A text can name so many letters; and it names all that may stand in equations, rules and pairs.
const MOST_LETTERS: u32 = 256;
const LEAST_LETTERS: u32 = 16;

/// The words and marks of a text, without its comments.
fn tokens(text: &str) -> Vec<String> {
    let mut all: Vec<String> = Vec::new();
    for line in text.lines() {
        let line = line.split('#').next().unwrap_or("").replace("->", "→");
        let mut word = String::new();
        for c in line.chars() {
            let named = c.is_ascii_alphanumeric() || c == '_' || c == '\'';
            if named {
                word.push(c);
                continue;
            }
            if !word.is_empty() {
                all.push(std::mem::take(&mut word));
            }
            if !c.is_whitespace() {
                all.push(c.to_string());
            }
        }
        if !word.is_empty() {
            all.push(word);
        }
    }
    all
}

struct Reader<'a> {
    rest: &'a [String],
    signs: Vec<String>,
    letters: Vec<String>,
    parts: Vec<u32>,
    ranks: Vec<u32>,
}

impl Reader<'_> {
    fn take(&mut self, word: &str) -> bool {
        let found = self.rest.first().is_some_and(|first| first == word);
        if found {
            self.rest = &self.rest[1..];
        }
        found
    }

    fn next(&mut self) -> Result<String, String> {
        let (first, rest) = self.rest.split_first().ok_or("the text ends too early")?;
        self.rest = rest;
        Ok(first.clone())
    }

    fn expect(&mut self, mark: &str) -> Result<(), String> {
        if self.take(mark) { Ok(()) } else { Err(format!("expected {mark}, found {:?}", self.rest.first())) }
    }

    fn number(&mut self) -> Result<u32, String> {
        self.next()?.parse().map_err(|_| "expected a number".to_string())
    }

    // Whether another entry of a section comes.
    fn more(&self) -> bool {
        !matches!(self.rest.first().map(String::as_str), None | Some("letters" | "equations" | "rules"))
    }

    fn signs(&mut self) -> Result<(), String> {
        self.expect("signs")?;
        while self.more() {
            let name = self.next()?;
            self.signs.push(name);
            self.expect("/")?;
            let parts = self.number()?;
            self.parts.push(parts);
            let rank = if self.take("rank") { self.number()? } else { self.ranks.len() as u32 };
            self.ranks.push(rank);
        }
        Ok(())
    }

    fn term(&mut self, terms: &mut Terms) -> Result<Term, String> {
        let name = self.next()?;
        if let Some(x) = self.letters.iter().position(|letter| *letter == name) {
            return Ok(terms.letter(x as u32));
        }
        let f = self.signs.iter().position(|sign| *sign == name).ok_or_else(|| format!("no sign and no letter: {name}"))?;
        let mut parts = Vec::new();
        if self.take("(") && !self.take(")") {
            parts.push(self.term(terms)?);
            while self.take(",") {
                parts.push(self.term(terms)?);
            }
            self.expect(")")?;
        }
        if parts.len() == self.parts[f] as usize { Ok(terms.sign(f as u32, parts)) } else { Err(format!("{name} has other parts")) }
    }

    fn sides(&mut self, terms: &mut Terms, mark: &str) -> Result<Sides, String> {
        let left = self.term(terms)?;
        self.expect(mark)?;
        Ok((left, self.term(terms)?))
    }

    fn book(mut self, terms: &mut Terms) -> Result<(Book, Ways), String> {
        self.signs()?;
        if self.take("letters") {
            while self.more() {
                let name = self.next()?;
                self.letters.push(name);
            }
        }
        let (mut equations, mut rules, mut ways) = (Vec::new(), Vec::new(), Vec::new());
        if self.take("equations") {
            while self.more() {
                equations.push(self.sides(terms, "=")?);
            }
        }
        if self.take("rules") {
            while self.more() {
                rules.push(self.sides(terms, "→")?);
                let mut way = Vec::new();
                while self.take("=") {
                    way.push(self.term(terms)?);
                }
                ways.push(way);
            }
        }
        if !self.rest.is_empty() {
            return Err("the text goes on after its end".into());
        }
        Ok((Book { parts: self.parts, ranks: self.ranks, equations, rules }, ways))
    }
}

/// The book that a text writes, and the ways of its rules.
pub fn read_text(terms: &mut Terms, text: &str) -> Result<(Book, Ways), String> {
    let tokens = tokens(text);
    let reader = Reader { rest: &tokens, signs: Vec::new(), letters: Vec::new(), parts: Vec::new(), ranks: Vec::new() };
    reader.book(terms)
}

fn write_term(terms: &Terms, t: Term) -> String {
    match terms.node(t) {
        Node::Letter(x) => format!("x{x}"),
        Node::Sign(f, parts) if parts.is_empty() => format!("f{f}"),
        Node::Sign(f, parts) => {
            let parts: Vec<String> = parts.iter().map(|&p| write_term(terms, p)).collect();
            format!("f{f}({})", parts.join(", "))
        }
    }
}

/// A book and its ways in the readable form; `None` if a way has a letter that no text can name.
pub fn write_text(terms: &Terms, book: &Book, ways: &Ways) -> Option<String> {
    let last = ways.iter().flatten().flat_map(|&t| terms.letters(t)).max().unwrap_or(0);
    if last >= MOST_LETTERS {
        return None;
    }
    let mut text = "signs".to_string();
    for (f, (parts, rank)) in book.parts.iter().zip(&book.ranks).enumerate() {
        text += &format!(" f{f}/{parts} rank {rank}");
    }
    text += "\nletters";
    (0..LEAST_LETTERS.max(last + 1)).for_each(|x| text += &format!(" x{x}"));
    text += "\nequations\n";
    for &(left, right) in &book.equations {
        text += &format!("  {} = {}\n", write_term(terms, left), write_term(terms, right));
    }
    text += "rules\n";
    for (&(left, right), way) in book.rules.iter().zip(ways) {
        text += &format!("  {} -> {}\n", write_term(terms, left), write_term(terms, right));
        way.iter().for_each(|&t| text += &format!("    = {}\n", write_term(terms, t)));
    }
    Some(text)
}

/// A pair of terms on a line.
pub fn write_pair(terms: &Terms, t: Term, u: Term) -> String {
    format!("{} = {}\n", write_term(terms, t), write_term(terms, u))
}
