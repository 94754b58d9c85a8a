//! The comparer on programs that answer stamps: right answers pass, and others are found out.

mod comparing;

use comparing::{
    compare_stamps, is_found_out_by, one_wrong_answer_is_found, right, right_answers_pass, stamps,
};
use harness::request::{hex, Request};

/// Enough for every way to be wrong.
const COUNT: usize = 12_000;

#[test]
fn right_stamps_pass() {
    right_answers_pass(&compare_stamps(COUNT));
}

#[test]
fn one_wrong_stamp_is_found_and_shown() {
    let comparer = compare_stamps(COUNT);
    for place in [0, 1, COUNT - 1] {
        let wrong = format!("{} 0", comparer.answers[place]);
        one_wrong_answer_is_found(&comparer, place, &wrong);
    }
}

/// A program that answers so is found out.
#[track_caller]
fn is_found_out(name: &str, answer: impl Fn(&Request) -> String) {
    let answers = stamps(COUNT).map(|stamp| answer(&stamp)).collect();
    is_found_out_by(&compare_stamps(COUNT), name, answers);
}

/// The right answer to the same with another text.
fn with_text(request: &Request, change: impl Fn(&mut Vec<u8>)) -> String {
    let mut other = request.clone();
    if let Request::RfcRead { text } = &mut other {
        change(text);
    }
    right(&other)
}

/// The right answer with the bytes of a text that is written changed.
fn with_written(request: &Request, change: impl Fn(&str) -> String) -> String {
    let right = right(request);
    match right.split(' ').collect::<Vec<_>>()[..] {
        ["wrote", _, text] => {
            let bytes = (0..text.len()).step_by(2);
            let bytes = bytes.map(|place| u8::from_str_radix(&text[place..place + 2], 16));
            let bytes = bytes.collect::<Result<Vec<u8>, _>>().expect("it is hex");
            let text = change(&String::from_utf8(bytes).expect("it is ASCII"));
            format!("wrote {} {}", text.len(), hex(text.as_bytes()))
        }
        _ => right,
    }
}

#[test]
fn a_program_that_takes_other_signs_is_found_out() {
    is_found_out("comma", |request| {
        with_text(request, |text| {
            if text.get(19) == Some(&b',') {
                text[19] = b'.';
            }
        })
    });
    is_found_out("space", |request| {
        with_text(request, |text| {
            if text.get(10) == Some(&b' ') {
                text[10] = b'T';
            }
        })
    });
    is_found_out("no_small_letters", |request| match request {
        Request::RfcRead { text } if text.iter().any(u8::is_ascii_lowercase) => {
            "refused 25 10".to_string()
        }
        _ => right(request),
    });
}

/// The place one further, or a rest that is not looked at.
#[test]
fn a_program_that_counts_places_otherwise_is_found_out() {
    is_found_out("one_further", |request| {
        let right = right(request);
        let place = right
            .strip_prefix("refused 25 ")
            .and_then(|word| word.parse::<usize>().ok());
        place.map_or(right, |place| format!("refused 25 {}", place + 1))
    });
    is_found_out("rest_allowed", |request| {
        with_text(request, |text| {
            let end = text.iter().position(|byte| matches!(byte, b'Z' | b'z'));
            text.truncate(end.map_or(text.len(), |place| place + 1));
        })
    });
}

#[test]
fn a_program_that_refuses_in_another_order_is_found_out() {
    let is_read = |request: &Request, number: &str| {
        matches!(request, Request::RfcRead { .. }) && right(request).starts_with(number)
    };
    let has = |request: &Request, place: usize, digits: &[u8]| match request {
        Request::RfcRead { text } => text[place..].starts_with(digits),
        _ => false,
    };
    is_found_out("27_before_26", |request| {
        if is_read(request, "refused 26 ") && has(request, 17, b"60") {
            "refused 27 0".to_string()
        } else {
            right(request)
        }
    });
    is_found_out("28_before_26", |request| {
        if is_read(request, "refused 26 ") && has(request, 0, b"0000") {
            "refused 28 0".to_string()
        } else {
            right(request)
        }
    });
    is_found_out("no_leap_second", |request| {
        with_text(request, |text| {
            if text.get(17..19) == Some(b"60") {
                text[17..19].copy_from_slice(b"59");
            }
        })
    });
    is_found_out("no_room_first", |request| match request {
        Request::RfcWrite { room: 0, .. } => "refused 5 20".to_string(),
        _ => right(request),
    });
}

/// A fraction of more than nine digits one up, or the mark left out or always set.
#[test]
fn a_program_that_reads_other_values_is_found_out() {
    is_found_out("rounds", |request| {
        let right = right(request);
        match (request, right.split(' ').collect::<Vec<_>>().as_mut_slice()) {
            (Request::RfcRead { text }, ["stamp", _, _, _, nanoseconds, _, _])
                if text
                    .get(29)
                    .is_some_and(|digit| (b'5'..=b'9').contains(digit)) =>
            {
                let up = nanoseconds.parse::<u64>().expect("a number") + 1;
                right.replace(*nanoseconds, &up.to_string())
            }
            _ => right,
        }
    });
    is_found_out("no_mark", |request| {
        let right = right(request);
        match right
            .strip_suffix(" 0 1")
            .filter(|_| right.starts_with("stamp "))
        {
            Some(start) => format!("{start} 0 0"),
            None => right,
        }
    });
    is_found_out("always_a_mark", |request| {
        let right = right(request);
        match right
            .strip_suffix(" 0 0")
            .filter(|_| right.starts_with("stamp "))
        {
            Some(start) => format!("{start} 0 1"),
            None => right,
        }
    });
}

#[test]
fn a_program_that_writes_otherwise_is_found_out() {
    is_found_out("small", |request| {
        with_written(request, |text| text.to_lowercase())
    });
    is_found_out("no_zulu", |request| {
        with_written(request, |text| text.replace('Z', "+00:00"))
    });
    is_found_out("plus_unknown", |request| {
        with_written(request, |text| text.replace("-00:00", "+00:00"))
    });
    is_found_out("short_fraction", |request| {
        with_written(request, |text| {
            text.replace("000Z", "Z").replace("000+", "+")
        })
    });
    is_found_out("always_a_fraction", |request| {
        with_written(request, |text| match text.as_bytes()[19] {
            b'.' => text.to_string(),
            _ => format!("{}.000000000{}", &text[..19], &text[19..]),
        })
    });
}
