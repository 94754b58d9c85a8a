//! The comparer on programs that answer lists: right answers pass, and others are found out.

mod comparing;

use comparing::{
    compare_lists, is_found_out_by, lists, one_wrong_answer_is_found, right, right_answers_pass,
    COUNT,
};
use harness::choices::Books;
use harness::request::Request;

#[test]
fn right_lists_pass() {
    for books in [None, Some(Books::English), Some(Books::Random)] {
        right_answers_pass(&compare_lists(books, COUNT));
    }
}

#[test]
fn one_wrong_list_is_found_and_shown() {
    let comparer = compare_lists(None, COUNT);
    for place in [0, 1, 2, 3, COUNT - 1] {
        let wrong = format!("{} 0:0:0:0", comparer.answers[place]);
        one_wrong_answer_is_found(&comparer, place, &wrong);
    }
}

/// A program that answers so is found out.
#[track_caller]
fn is_found_out(name: &str, answer: impl Fn(&Request) -> String) {
    let answers = lists(None, COUNT).map(|list| answer(&list)).collect();
    is_found_out_by(&compare_lists(None, COUNT), name, answers);
}

/// The right answer to the same list with another text.
fn with_text(list: &Request, change: impl Fn(&mut Vec<u8>)) -> String {
    let mut other = list.clone();
    if let Request::List { text, .. } = &mut other {
        change(text);
    }
    right(&other)
}

/// The right answer with the cells of its lines changed, where it has any.
fn with_cells(list: &Request, change: impl Fn(&mut Vec<String>)) -> String {
    let right = right(list);
    if !right.starts_with("list ") {
        return right;
    }
    let mut words: Vec<String> = right.split(' ').skip(2).map(String::from).collect();
    change(&mut words);
    let line = format!("list {} {}", words.len(), words.join(" "));
    line.trim_end().to_string()
}

#[test]
fn a_program_that_stops_at_a_bad_line_is_found_out() {
    is_found_out("stops", |list| {
        with_cells(list, |cells| {
            let bad = cells.iter().position(|cells| !cells.starts_with("0:"));
            cells.truncate(bad.map_or(cells.len(), |place| place + 1));
        })
    });
}

#[test]
fn a_program_that_drops_a_last_line_without_a_newline_is_found_out() {
    is_found_out("drops_the_last", |list| {
        with_text(list, |text| {
            let end = text.iter().rposition(|byte| *byte == b'\n');
            text.truncate(end.map_or(0, |place| place + 1));
        })
    });
}

#[test]
fn a_program_that_counts_a_line_behind_the_last_newline_is_found_out() {
    is_found_out("one_more", |list| {
        with_text(list, |text| {
            if text.ends_with(b"\n") {
                text.push(b'\n');
            }
        })
    });
}

#[test]
fn a_program_that_drops_carriage_returns_is_found_out() {
    is_found_out("drops_returns", |list| {
        with_text(list, |text| text.retain(|byte| *byte != b'\r'))
    });
}

#[test]
fn a_program_that_leaves_out_empty_lines_is_found_out() {
    is_found_out("no_empty_lines", |list| {
        with_text(list, |text| {
            text.dedup_by(|byte, before| *byte == b'\n' && *before == b'\n')
        })
    });
}

/// Days for months, or a code for what is read.
#[test]
fn a_program_that_exchanges_rows_is_found_out() {
    for (name, order) in [
        ("months_first", [0, 2, 1, 3]),
        ("years_first", [0, 3, 2, 1]),
        ("codes_last", [1, 2, 3, 0]),
    ] {
        is_found_out(name, |list| {
            with_cells(list, |cells| {
                for cell in cells {
                    let row: Vec<&str> = cell.split(':').collect();
                    *cell = order.map(|place| row[place]).join(":");
                }
            })
        });
    }
}

/// Short rows before a bad pattern, not at all, or also where they are just long enough.
#[test]
fn a_program_that_refuses_short_rows_otherwise_is_found_out() {
    let with_rows = |list: &Request, change: &dyn Fn(usize) -> usize| {
        let mut other = list.clone();
        if let Request::List { rows, .. } = &mut other {
            *rows = change(*rows);
        }
        right(&other)
    };
    is_found_out("never_short", |list| with_rows(list, &|_| 20_000));
    is_found_out("one_too_many", |list| {
        with_rows(list, &|rows| rows.saturating_sub(1))
    });
    is_found_out("short_first", |list| match list {
        Request::List { text, rows, .. } if harness::lists::lines(text).len() > *rows => {
            "refused 24 0".to_string()
        }
        _ => right(list),
    });
}

/// Never strict, in the first edition alone, or by English whatever the book.
#[test]
fn a_program_that_knows_no_choices_is_found_out() {
    for (name, word) in [("plain", " strict"), ("first", " second")] {
        is_found_out(name, |list| {
            let line = list.to_string().replace(word, "");
            right(&Request::from_line(&line).expect("it is a list"))
        });
    }
    let books = Some(Books::Random);
    let answers = lists(books, COUNT).map(|list| right(&list.with_book(None)));
    is_found_out_by(&compare_lists(books, COUNT), "english", answers.collect());
}
