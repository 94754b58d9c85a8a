use crate::raw;

/// Which edition of the rules a text is read by. They differ in two symbols, and in the current years that they take.
#[derive(Clone, Copy, Debug, Default, PartialEq, Eq, Hash)]
pub enum Edition {
    /// A single `M` takes one byte, and a year of two digits is in the millennium of the current year, which is 1 to 9999.
    #[default]
    First,
    /// A single `M` takes one or two digits as a single `d` does, and a year of two digits is the one from 80 years before the
    /// current year to 19 years behind it that ends with them. The current year is 81 to 9999.
    Second,
}

impl Edition {
    /// What it adds to the number of choices.
    pub(crate) const fn number(self) -> u32 {
        match self {
            Edition::First => 0,
            Edition::Second => raw::SECOND_EDITION,
        }
    }
}

/// How a text is to be read, for [`read_with`](crate::read_with) and [`read_by`](crate::read_by).
///
/// ```
/// use sheet::Choices;
///
/// let choices = Choices::new().date().strict();
/// assert!(sheet::read_with(choices, "d/MM HH", "3/12 HH", 2025).is_ok());
/// assert!(sheet::read_with(choices, "d/MM HH", "3/12 07", 2025).is_err());
/// ```
#[derive(Clone, Copy, Debug, Default, PartialEq, Eq, Hash)]
pub struct Choices {
    pub(crate) date: bool,
    pub(crate) strict: bool,
    pub(crate) edition: Edition,
}

impl Choices {
    /// Those of [`read`](crate::read): time symbols are symbols, literals are passed over unseen, a rest is allowed, and the
    /// edition is the first.
    pub const fn new() -> Choices {
        Choices {
            date: false,
            strict: false,
            edition: Edition::First,
        }
    }

    /// Time symbols stand for themselves, as for [`read_date`](crate::read_date).
    pub const fn date(self) -> Choices {
        Choices { date: true, ..self }
    }

    /// Each byte of a literal has to be the one that it stands for, and nothing may be left over. Symbols that pass over bytes
    /// do so all the same.
    pub const fn strict(self) -> Choices {
        Choices { strict: true, ..self }
    }

    /// The edition, of which the last one that is named counts.
    ///
    /// ```
    /// use sheet::{read_with, Choices, Edition, ParseUnit};
    ///
    /// # fn main() -> Result<(), sheet::Refusal> {
    /// let second = Choices::new().edition(Edition::Second);
    /// assert_eq!(sheet::read("d/M", "3/12", 2025)?.value(ParseUnit::Month), Some(1));
    /// assert_eq!(read_with(second, "d/M", "3/12", 2025)?.value(ParseUnit::Month), Some(12));
    ///
    /// let year = |text: &str| read_with(second, "yy", text, 2025).map(|reading| reading.value(ParseUnit::Year));
    /// assert_eq!((year("44")?, year("45")?), (Some(2044), Some(1945)));
    /// # Ok(())
    /// # }
    /// ```
    pub const fn edition(self, edition: Edition) -> Choices {
        Choices { edition, ..self }
    }

    /// The number that [`raw::sheet_read_with`] and the functions with a book take for them.
    pub const fn number(self) -> u32 {
        self.date as u32 * raw::DATE_PAIR + self.strict as u32 * raw::STRICT + self.edition.number()
    }
}

#[cfg(test)]
mod tests {
    use super::{Choices, Edition};

    #[test]
    fn each_has_its_number() {
        let none = Choices::new();
        assert_eq!(none, Choices::default());
        let first = [none, none.date(), none.strict(), none.date().strict()];
        assert_eq!(first.map(Choices::number), [0, 1, 2, 3]);
        let second = first.map(|choices| choices.edition(Edition::Second));
        assert_eq!(second.map(Choices::number), [4, 5, 6, 7]);
    }

    #[test]
    fn neither_their_order_nor_how_often_they_are_made_matters() {
        let all = Choices::new().date().strict().edition(Edition::Second);
        assert_eq!(all, Choices::new().edition(Edition::Second).strict().date());
        assert_eq!(all, all.date().strict().edition(Edition::Second));
    }

    #[test]
    fn of_two_editions_the_last_counts() {
        let strict = Choices::new().strict();
        assert_eq!(strict, strict.edition(Edition::Second).edition(Edition::First));
    }
}
