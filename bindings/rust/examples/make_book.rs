//! Makes a book file of a list of names: make_book NAMES.txt BOOK.lnb
//!
//! The list has the 64 names in book order, one a line; a line that begins with # is none, nor is an empty one. The folder `books` has
//! some, and says what a name may be.

use sheet::Book;
use std::process::ExitCode;
use std::{env, fs};

fn main() -> ExitCode {
    let words: Vec<String> = env::args().skip(1).collect();
    let [list, file] = &words[..] else {
        eprintln!("usage: make_book NAMES.txt BOOK.lnb");
        return ExitCode::from(2);
    };
    match make(list, file) {
        Ok(()) => ExitCode::SUCCESS,
        Err(sentence) => {
            eprintln!("make_book: {sentence}");
            ExitCode::FAILURE
        }
    }
}

fn make(list: &str, file: &str) -> Result<(), String> {
    let names = fs::read_to_string(list).map_err(|error| format!("{list}: {error}"))?;
    let bytes = book_of(&names).map_err(|sentence| format!("{list}: {sentence}"))?;
    fs::write(file, bytes).map_err(|error| format!("{file}: {error}"))
}

/// The bytes of the book; where a name is bad, its line and why.
pub fn book_of(list: &str) -> Result<Vec<u8>, String> {
    let lines = (1..).zip(list.lines().map(str::trim));
    let (numbers, names): (Vec<usize>, Vec<&str>) = lines.filter(|(_, line)| is_name(line)).unzip();
    let names: [&str; 64] = names
        .try_into()
        .map_err(|names: Vec<_>| format!("the list has {} names, and a book has 64", names.len()))?;
    match Book::from_names(names) {
        Ok(book) => Ok(book.write()),
        Err(refusal) => {
            let place = refusal.details()[0] as usize - 1;
            Err(format!("line {}, `{}`: {refusal}", numbers[place], names[place]))
        }
    }
}

fn is_name(line: &str) -> bool {
    !line.is_empty() && !line.starts_with('#')
}
