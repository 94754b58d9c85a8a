//! Books that are read and written: the files in `books`, and any others.

mod shelves;

#[path = "../examples/make_book.rs"]
#[allow(dead_code)]
mod make_book;

use sheet::{raw, Book, Names};
use shelves::{book_of, book_with, in_order, some_books, Random, DUTCH, ENGLISH, SPANISH};

const LISTS: [(&[u8], &str); 3] = [
    (ENGLISH, include_str!("../../../books/english.txt")),
    (DUTCH, include_str!("../../../books/dutch.txt")),
    (SPANISH, include_str!("../../../books/spanish.txt")),
];

/// The lines of a list that are names.
fn names_of(list: &str) -> Vec<&str> {
    list.lines().filter(|line| !line.starts_with('#')).collect()
}

#[test]
fn files_are_what_the_example_makes_of_their_lists() {
    for (file, list) in LISTS {
        assert_eq!(make_book::book_of(list).as_deref(), Ok(file));
        let book = Book::read(file).expect("it is a book");
        assert_eq!(in_order(&book)[..], names_of(list)[..]);
        assert_eq!(book.write(), file);
    }
}

#[test]
fn english_is_what_is_used_without_a_book() {
    assert_eq!(Book::english().write(), ENGLISH);
    let names = Book::english().names();
    assert_eq!((names.wide_months[0], names.wide_months[11]), ("January", "December"));
    assert_eq!((names.short_months[0], names.short_months[11]), ("Jan", "Dec"));
    assert_eq!((names.wide_weekdays[0], names.wide_weekdays[6]), ("Sunday", "Saturday"));
    assert_eq!((names.short_weekdays[0], names.short_weekdays[6]), ("Sun", "Sat"));
    assert_eq!(names.two_letter_weekdays, ["Su", "Mo", "Tu", "We", "Th", "Fr", "Sa"]);
    assert_eq!(names.narrow_weekdays.concat(), "SMTWTFS");
    assert_eq!(names.narrow_months.concat(), "JFMAMJJASOND");
}

#[test]
fn the_example_says_which_name_is_bad() {
    let (_, dutch) = LISTS[1];
    let said = |old: &str, new: &str| make_book::book_of(&dutch.replacen(old, new, 1)).expect_err("a name is bad");
    assert_eq!(
        said("\nmrt\n", "\nm\u{e4}r\n"),
        "line 18, `m\u{e4}r`: the book has a bad name: name 15, the 3rd short month; \
         short months have 2 to 20 ASCII letters, and none begins another"
    );
    assert_eq!(
        said("\nzat\n", "\n za \n"),
        "line 43, `za`: the book has a bad name: name 38, the 7th short weekday from Sunday; short weekdays have 3 ASCII letters"
    );
    assert_eq!(said("\nmrt\n", "\n"), "the list has 63 names, and a book has 64");
    assert_eq!(
        said("\nmrt\n", "\nmrt\nmaa\n"),
        "the list has 65 names, and a book has 64"
    );
    assert_eq!(
        make_book::book_of("# none\n\n"),
        Err("the list has 0 names, and a book has 64".to_string())
    );
}

/// Ends of lines, spaces around names, and empty lines do not matter.
#[test]
fn lists_may_be_laid_out_otherwise() {
    for (file, list) in LISTS {
        for other in [
            list.replace('\n', "\r\n"),
            list.replace('\n', "\n\n"),
            list.replace('\n', " \n\t"),
            list.trim_end().to_string(),
            names_of(list).join("\n"),
        ] {
            assert_eq!(make_book::book_of(&other).as_deref(), Ok(file));
        }
    }
}

/// What is written is read as the same, by its names too, and has the bytes that the format says.
#[track_caller]
fn comes_back(book: &Book) {
    let bytes = book.write();
    assert_eq!(bytes, book_of(1, &in_order(book)));
    assert_eq!(Book::read(&bytes).as_ref(), Ok(book));
    assert_eq!(Book::from_names(book.names()).as_ref(), Ok(book));
    assert_eq!(Book::from_names(in_order(book)).as_ref(), Ok(book));
    assert_eq!(Names::from(in_order(book)), book.names());
}

#[test]
fn books_come_back() {
    for book in some_books() {
        comes_back(&book);
    }
    let mut random = Random::new();
    for _ in 0..2000 {
        comes_back(&random.book());
    }
}

#[test]
fn the_shortest_and_the_longest() {
    assert_eq!(book_with(|list| list.least).write().len(), 185);
    assert_eq!(book_with(|list| list.most).write().len(), raw::LONGEST_BOOK);
}

/// Its names are shown as they are in version 1, whatever is behind them, and written in version 1 again.
#[test]
fn version_2_may_go_on() {
    let mut random = Random::new();
    for book in some_books() {
        let mut bytes = book_of(2, &in_order(&book));
        assert_eq!(Book::read(&bytes).as_ref(), Ok(&book));
        for length in [1, 2, 64, 255, 256, 10_000] {
            bytes.extend(random.bytes(length));
            let read = Book::read(&bytes);
            assert_eq!(read.as_ref(), Ok(&book));
            assert_eq!(read.map(|book| book.write()), Ok(book.write()));
        }
    }
}

#[test]
fn books_are_equal_by_their_names() {
    let books = some_books();
    for (place, book) in books.iter().enumerate() {
        for (other_place, other) in books.iter().enumerate() {
            assert_eq!(book == other, place == other_place);
            assert_eq!(book.names() == other.names(), place == other_place);
        }
    }
    assert!(format!("{:?}", books[0]).contains("\"mrt\""));
}
