//! The comparer on programs that mend patterns: right answers pass, and others are found out.

mod comparing;

use comparing::{
    compare_mends, is_found_out_by, mends, one_wrong_answer_is_found, right, right_answers_pass,
    COUNT,
};
use harness::choices::Edition;
use harness::mending::Mended;
use harness::request::Request;

#[test]
fn right_ones_pass() {
    right_answers_pass(&compare_mends(COUNT));
}

#[test]
fn one_wrong_one_is_found_and_shown() {
    let comparer = compare_mends(COUNT);
    for place in [0, 1, COUNT - 1] {
        let wrong = format!("{} 0:-:20", comparer.answers[place]);
        one_wrong_answer_is_found(&comparer, place, &wrong);
    }
}

/// A program that answers so is found out.
#[track_caller]
fn is_found_out(name: &str, answer: impl Fn(&Request) -> String) {
    let answers = mends(COUNT).map(|mend| answer(&mend)).collect();
    is_found_out_by(&compare_mends(COUNT), name, answers);
}

/// The right answer with what is mended changed, where anything is.
fn changed(mend: &Request, change: impl Fn(&mut Mended)) -> String {
    let right = right(mend);
    match Mended::of_line(&right) {
        Some(mut mended) => {
            change(&mut mended);
            mended.line()
        }
        None => right,
    }
}

#[test]
fn a_program_that_leaves_a_change_out_of_its_list_is_found_out() {
    is_found_out("first_alone", |mend| {
        changed(mend, |mended| mended.changes.truncate(1))
    });
    is_found_out("no_list", |mend| {
        changed(mend, |mended| mended.changes.clear())
    });
}

#[test]
fn a_program_that_lists_each_of_two_spaces_is_found_out() {
    is_found_out("two_changes", |mend| {
        changed(mend, |mended| {
            let two = mended.changes.iter().position(|change| change.new == b"  ");
            if let Some(place) = two {
                mended.changes[place].new.pop();
                let mut second = mended.changes[place].clone();
                second.place += 1;
                mended.changes.insert(place + 1, second);
            }
        })
    });
}

/// The other edition's answer, or the first's always.
#[test]
fn a_program_that_takes_the_editions_for_one_is_found_out() {
    let in_edition = |mend: &Request, other: Option<Edition>| {
        let mut mend = mend.clone();
        if let Request::Mend { edition, .. } = &mut mend {
            *edition = other.unwrap_or(match edition {
                Edition::First => Edition::Second,
                Edition::Second => Edition::First,
            });
        }
        right(&mend)
    };
    is_found_out("exchanged", |mend| in_edition(mend, None));
    is_found_out("first", |mend| in_edition(mend, Some(Edition::First)));
    is_found_out("second", |mend| in_edition(mend, Some(Edition::Second)));
}

/// 5 before 30, 30 never, and a room that is too large by one.
#[test]
fn a_program_that_refuses_otherwise_is_found_out() {
    let with_room = |mend: &Request, change: &dyn Fn(usize) -> usize| {
        let mut mend = mend.clone();
        if let Request::Mend { room, .. } = &mut mend {
            *room = change(*room);
        }
        right(&mend)
    };
    is_found_out("always_room", |mend| with_room(mend, &|_| 4096));
    is_found_out("one_too_many", |mend| {
        with_room(mend, &|room| room.saturating_sub(1))
    });
    is_found_out("never_30", |mend| match right(mend).as_str() {
        "refused 30 0" => "refused 5 257".to_string(),
        line => line.to_string(),
    });
}
