//! Recorded answers: the program `ask`, and with it the functions that it calls, answers each request as it was recorded.
//!
//! A recording is two lines, a request and its answer; a line that begins with # stands between recordings.

mod asking;

/// Answers of the Rust; its first lines say how it was made.
const RECORDED: &str = include_str!("recorded.txt");
/// Each refusal at its boundary.
const BOUNDARIES: &str = include_str!("boundaries.txt");

#[derive(Clone, Debug, PartialEq)]
struct Recording {
    request: String,
    answer: String,
}

fn recordings(file: &str) -> Vec<Recording> {
    let mut recordings = Vec::new();
    let mut lines = file.lines();
    while let Some(line) = lines.next() {
        if !line.starts_with('#') {
            recordings.push(Recording {
                request: line.to_string(),
                answer: lines.next().expect("each request has an answer").to_string(),
            });
        }
    }
    recordings
}

/// The recordings that are answered otherwise, with what is answered.
fn differing(recordings: &[Recording]) -> Vec<(Recording, String)> {
    let requests: String = recordings
        .iter()
        .map(|recording| recording.request.clone() + "\n")
        .collect();
    let answers = String::from_utf8(asking::answers(requests.as_bytes())).expect("answers are text");
    assert_eq!(answers.lines().count(), recordings.len(), "one answer a request");
    let pairs = recordings.iter().cloned().zip(answers.lines().map(str::to_string));
    pairs
        .filter(|(recording, answer)| recording.answer != *answer)
        .collect()
}

#[track_caller]
fn all_are_given(file: &str, count: usize) {
    let recordings = recordings(file);
    assert_eq!(recordings.len(), count);
    let differing = differing(&recordings);
    assert!(
        differing.is_empty(),
        "{} differ, first {:?}",
        differing.len(),
        differing[0]
    );
}

/// A recording that is made wrong is reported, by itself and as it stands.
#[track_caller]
fn a_wrong_one_is_reported(file: &str) {
    let mut recordings = recordings(file);
    let last = recordings.len() - 1;
    for place in [0, last / 2, last] {
        let right = recordings[place].answer.clone();
        for wrong in [
            right.clone() + "0",
            right[1..].to_string(),
            "yes".to_string(),
            String::new(),
        ] {
            recordings[place].answer = wrong;
            assert_eq!(
                differing(&recordings[place..=place]),
                [(recordings[place].clone(), right.clone())]
            );
        }
        assert_eq!(differing(&recordings), [(recordings[place].clone(), right.clone())]);
        recordings[place].answer = right;
    }
}

#[test]
fn of_the_rust() {
    all_are_given(RECORDED, 8000);
}

#[test]
fn at_the_boundaries_of_refusals() {
    all_are_given(BOUNDARIES, 1667);
}

/// The writes, reads, checks and lists among them, asked for by a prepared pattern, have the same answers.
#[test]
fn by_prepared_patterns() {
    for (file, least) in [(RECORDED, 5000), (BOUNDARIES, 700)] {
        let mut prepared = recordings(file);
        prepared.retain(|recording| has_a_pattern_to_prepare(&recording.request));
        for recording in &mut prepared {
            recording.request.insert_str(0, "prepared ");
        }
        assert!(prepared.len() > least, "only {}", prepared.len());
        assert_eq!(differing(&prepared), []);
    }
}

fn has_a_pattern_to_prepare(request: &str) -> bool {
    let word = request.split(' ').next().unwrap_or_default();
    ["write", "write_date", "read", "read_date", "check", "list"].contains(&word)
}

#[test]
fn a_wrong_answer_of_the_rust_is_reported() {
    a_wrong_one_is_reported(RECORDED);
}

#[test]
fn a_wrong_answer_at_a_boundary_is_reported() {
    a_wrong_one_is_reported(BOUNDARIES);
}
