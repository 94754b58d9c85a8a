use crate::raw;
use std::array;

/// The names of a [book](crate::Book) in seven lists, the months from January and the weekdays from Sunday. They are ASCII letters.
///
/// All 64 in book order are the lists one behind the other, as they stand here; [`From`] makes either of the other.
///
/// ```
/// let names = sheet::Book::english().names();
/// assert_eq!((names.wide_months[11], names.short_weekdays[3]), ("December", "Wed"));
///
/// let in_order: [&str; 64] = names.into();
/// assert_eq!((in_order[11], in_order[34], in_order[63]), ("December", "Wed", "D"));
/// assert_eq!(sheet::Names::from(in_order), names);
/// ```
#[derive(Clone, Copy, Debug, PartialEq, Eq, Hash)]
pub struct Names<T> {
    /// For `M` at 4 and from 6 on. 2 to 20 letters; none begins another of this list.
    pub wide_months: [T; 12],
    /// For `M` at 3. 2 to 20 letters; none begins another of this list.
    pub short_months: [T; 12],
    /// For `e` at 4. 2 to 20 letters; none begins another of this list.
    pub wide_weekdays: [T; 7],
    /// For `e` at 3. 3 letters.
    pub short_weekdays: [T; 7],
    /// For `e` at 6. 2 letters.
    pub two_letter_weekdays: [T; 7],
    /// For `e` at 5. 1 letter.
    pub narrow_weekdays: [T; 7],
    /// For `M` at 5. 1 letter.
    pub narrow_months: [T; 12],
}

impl<T> From<[T; raw::BOOK_ROOMS]> for Names<T> {
    fn from(names: [T; raw::BOOK_ROOMS]) -> Names<T> {
        let mut names = names.into_iter();
        Names {
            wide_months: next(&mut names),
            short_months: next(&mut names),
            wide_weekdays: next(&mut names),
            short_weekdays: next(&mut names),
            two_letter_weekdays: next(&mut names),
            narrow_weekdays: next(&mut names),
            narrow_months: next(&mut names),
        }
    }
}

impl<T> From<Names<T>> for [T; raw::BOOK_ROOMS] {
    fn from(names: Names<T>) -> [T; raw::BOOK_ROOMS] {
        let months = names.wide_months.into_iter().chain(names.short_months);
        let weekdays = names.wide_weekdays.into_iter().chain(names.short_weekdays);
        let shorter = names.two_letter_weekdays.into_iter().chain(names.narrow_weekdays);
        next(&mut months.chain(weekdays).chain(shorter).chain(names.narrow_months))
    }
}

/// So many names as a list has.
fn next<T, const COUNT: usize>(names: &mut impl Iterator<Item = T>) -> [T; COUNT] {
    array::from_fn(|_| names.next().expect("the lists have 64 names"))
}

#[cfg(test)]
mod tests {
    use super::Names;
    use crate::raw;

    #[test]
    fn each_list_begins_at_its_room() {
        let rooms: [usize; raw::BOOK_ROOMS] = std::array::from_fn(|room| room);
        let names = Names::from(rooms);
        for (list, first) in [
            (&names.wide_months[..], raw::WIDE_MONTHS),
            (&names.short_months, raw::SHORT_MONTHS),
            (&names.wide_weekdays, raw::WIDE_WEEKDAYS),
            (&names.short_weekdays, raw::SHORT_WEEKDAYS),
            (&names.two_letter_weekdays, raw::TWO_LETTER_WEEKDAYS),
            (&names.narrow_weekdays, raw::NARROW_WEEKDAYS),
            (&names.narrow_months, raw::NARROW_MONTHS),
        ] {
            assert!(list.iter().copied().eq(first..first + list.len()), "{list:?}");
        }
        assert_eq!(<[usize; raw::BOOK_ROOMS]>::from(names), rooms);
    }
}
