//! The example that imports a list: its table, with the lines marked that have no date.

#[path = "../examples/import_list.rs"]
#[allow(dead_code)]
mod import_list;

const LIST: &str = include_str!("../examples/arrivals.txt");
const HEADING: &str = "line   year  month  day\n";

const TABLE: &str = "\
line   year  month  day
   1   2026      3    5
   2   2026      3    6
   3 ! ` ` needs ` `, found `/`
   4 ! `MMM` needs a month such as `Dec`, found `mrt`
   5 ! `d` needs one or two digits, found `+9`
   6   2026      3   10
   7 ! the text goes on where the pattern ends, with ` (late)`
   8 ! `d` needs one or two digits, found the end of the text
   9 ! the text has a byte that is not plain ASCII: at place 4, counted from 0
  10 ! there is no such day
  11 ! ` ` needs ` `, found the end of the text
  12   2026      3   15
12 lines, 8 without a date
";

fn table(pattern: &str, list: &str) -> Result<String, u32> {
    import_list::table(pattern, list.as_bytes(), 2025).map_err(|refusal| refusal.number())
}

#[test]
fn lines_without_a_date_are_marked() {
    assert_eq!(table("d MMM yyyy", LIST).as_deref(), Ok(TABLE));
}

#[test]
fn ends_of_lines_do_not_matter() {
    assert_eq!(table("d MMM yyyy", LIST.trim_end()).as_deref(), Ok(TABLE));
    assert_eq!(table("d MMM yyyy", &LIST.replace('\n', "\r\n")).as_deref(), Ok(TABLE));
}

#[test]
fn of_no_line_and_of_a_pattern_that_is_refused() {
    assert_eq!(table("d", ""), Ok(format!("{HEADING}0 lines, 0 without a date\n")));
    assert_eq!(table("d'", LIST), Err(3));
}
