//! Both comparers on programs that answer requests with books, and of books.

mod comparing;

use comparing::{
    compare_check_with, compare_with, is_found_out_with, one_wrong_answer_is_found, right,
    right_answers_pass, Comparer, COUNT,
};
use harness::book::{bytes_of, open, LISTS};
use harness::choices::Books;
use harness::names::english;
use harness::request::Request;

fn comparers() -> impl Iterator<Item = Comparer> {
    [Books::English, Books::Random]
        .map(Some)
        .into_iter()
        .flat_map(|books| [compare_with(books, COUNT), compare_check_with(books)])
}

#[test]
fn right_answers_with_books_pass() {
    for comparer in comparers() {
        right_answers_pass(&comparer);
    }
}

#[test]
fn one_wrong_answer_with_a_book_is_found_and_shown() {
    for comparer in comparers() {
        for place in [0, COUNT - 1] {
            let wrong = format!("{} 0", comparer.answers[place]);
            one_wrong_answer_is_found(&comparer, place, &wrong);
        }
    }
}

/// A program that answers so is found out.
#[track_caller]
fn is_found_out_by_books(name: &str, answer: impl Fn(&Request) -> String) {
    is_found_out_with(Some(Books::Random), 4 * COUNT, name, answer);
}

#[test]
fn a_program_that_knows_english_alone_is_found_out() {
    is_found_out_by_books("english", |request| right(&request.clone().with_book(None)));
}

/// Each list is asked for, so that a program which has one of them from English is found out as well.
#[test]
fn a_program_that_takes_one_list_from_english_is_found_out() {
    for (number, list) in LISTS.into_iter().enumerate() {
        is_found_out_by_books(&format!("list_{number}"), |request| {
            let opened = request.book().and_then(|book| open(book).ok());
            let Some(mut names) = opened.map(|opened| opened.names) else {
                return right(request);
            };
            names[list.names.clone()].clone_from_slice(&english()[list.names.clone()]);
            right(&request.clone().with_book(Some(bytes_of(1, &names))))
        });
    }
}

/// Each number of a book's refusal for another, the next name, and another version.
#[test]
fn a_program_that_tells_something_else_of_a_book_is_found_out() {
    for (name, told, other) in [
        ("no_mark", "refused 20 0", "refused 21 0"),
        ("no_version", "refused 21 0", "refused 22 0"),
        ("cut_short", "refused 22 0", "refused 20 0"),
        ("next_name", "refused 23 12", "refused 23 13"),
        ("version_1", "book 2 ", "book 1 "),
    ] {
        is_found_out_by_books(name, |request| right(request).replace(told, other));
    }
}

/// What may stand behind a book of version 2 is no fault, and in version 1 it is.
#[test]
fn a_program_that_takes_both_versions_for_one_is_found_out() {
    for (name, version) in [("both_as_1", 1), ("both_as_2", 2)] {
        is_found_out_by_books(name, |request| match request {
            Request::Book { bytes } if matches!(bytes[..], [_, _, _, 0, 1 | 2, ..]) => {
                let mut bytes = bytes.clone();
                let told = format!("book {} ", bytes[4]);
                bytes[4] = version;
                let answer = right(&Request::Book { bytes });
                answer.replace(&format!("book {version} "), &told)
            }
            _ => right(request),
        });
    }
}
