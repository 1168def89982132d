//! A second judge of books, for checks from outside. It shares nothing with the library, and tries everything within nine letters and
//! signs.
//!
//!     brute make FOLDER COUNT          writes COUNT books FOLDER/N.rows with ways, and pairs of terms FOLDER/N.pairs; and both in the
//!                                      readable form, FOLDER/N.book and FOLDER/N.names, or else in FOLDER/N.unwritten why not
//!     brute take FOLDER TEXT..         the same for the books in the texts, by their names, in the readable form
//!     brute judge BOOK                 prints the answer on a book: `undecided`, with the answers that are left, if nine are too few
//!     brute tell BOOK PAIRS            prints an answer for each pair
//!
//! After each answer it prints, parted by tabs, how many letters and signs the largest term has to which steps lead from what is judged or
//! compared, with a `+` where not all could be followed; and how many words the book, its ways and the pair have.
mod compare;
mod faults;
mod judge;
mod make;
mod order;
mod rows;
mod terms;
mod text;

use judge::Judged;
use std::path::Path;
use std::{env, fs, process, thread};
use terms::Terms;

// Following steps goes deep.
const STACK: usize = 1 << 30;

fn words(line: &str) -> Result<Vec<u32>, String> {
    let line = line.split('#').next().unwrap_or("");
    line.split_whitespace().map(|word| word.parse().map_err(|_| format!("no word: {word}"))).collect()
}

fn read(name: &str) -> Result<String, String> {
    fs::read_to_string(name).map_err(|e| format!("{name}: {e}"))
}

// Also how many words the book and its ways have.
fn judge_file(terms: &mut Terms, name: &str) -> Result<(Judged, usize), String> {
    let text = read(name)?;
    let mut lines = text.lines();
    let book = words(lines.next().unwrap_or(""))?;
    let ways = words(lines.next().unwrap_or(""))?;
    Ok((judge::judge(terms, &book, &ways), book.len() + ways.len()))
}

fn read_pairs(name: &str) -> Result<Vec<[Vec<u32>; 2]>, String> {
    let mut pairs = Vec::new();
    for line in read(name)?.lines() {
        let (left, right) = line.split_once('|').ok_or_else(|| format!("no pair: {line}"))?;
        pairs.push([words(left)?, words(right)?]);
    }
    Ok(pairs)
}

fn run() -> Result<(), String> {
    let arguments: Vec<String> = env::args().skip(1).collect();
    let arguments: Vec<&str> = arguments.iter().map(String::as_str).collect();
    let mut terms = Terms::default();
    match arguments[..] {
        ["make", folder, count] => make::make(folder, count.parse().map_err(|_| "COUNT is no number")?),
        ["take", folder, ref texts @ ..] => {
            for text in texts {
                let name = Path::new(text).file_stem().and_then(|name| name.to_str()).ok_or("no name")?;
                make::take(folder, name, &read(text)?).map_err(|e| format!("{text}: {e}"))?;
            }
            Ok(())
        }
        ["judge", book] => {
            let (judged, count) = judge_file(&mut terms, book)?;
            println!("{}\t{}\t{count}", judged.verdict, judged.largest);
            Ok(())
        }
        ["tell", book, pairs] => {
            let (judged, count) = judge_file(&mut terms, book)?;
            let pairs = read_pairs(pairs)?;
            for (told, [left, right]) in compare::compare(&mut terms, &judged, &pairs).iter().zip(&pairs) {
                println!("{}\t{}\t{}", told.answer, told.largest, count + left.len() + right.len());
            }
            Ok(())
        }
        _ => Err("usage: brute make FOLDER COUNT | take FOLDER TEXT.. | judge BOOK | tell BOOK PAIRS".into()),
    }
}

fn main() {
    let worker = thread::Builder::new().stack_size(STACK).spawn(run).expect("a thread");
    if let Err(message) = worker.join().expect("no panic") {
        eprintln!("brute: {message}");
        process::exit(1);
    }
}
