//! The example that mends a pattern: what it prints.

#[path = "../examples/mend.rs"]
#[allow(dead_code)]
mod mend;

use sheet::Edition;

fn lines(edition: Edition, pattern: &str) -> Result<String, u32> {
    mend::lines(edition, pattern).map_err(|refusal| refusal.number())
}

#[test]
fn the_pattern_and_a_sentence_for_each_change() {
    let first = "\
d MM yyyy HHmm
  a space after `d`, since `MM` can begin with a digit
  `M` became `MM`
  `yy` became `yyyy`
";
    let second = "\
d M yyyy HHmm
  a space after `d`, since `M` can begin with a digit
  `yy` became `yyyy`
";
    assert_eq!(lines(Edition::First, "dM yy HHmm").as_deref(), Ok(first));
    assert_eq!(lines(Edition::Second, "dM yy HHmm").as_deref(), Ok(second));
}

#[test]
fn of_a_pattern_that_passes_and_of_one_that_is_refused() {
    assert_eq!(lines(Edition::First, "d/MM").as_deref(), Ok("d/MM\n"));
    assert_eq!(lines(Edition::First, "d'"), Err(3));
    assert_eq!(lines(Edition::First, &"dH".repeat(128)), Err(30));
}
