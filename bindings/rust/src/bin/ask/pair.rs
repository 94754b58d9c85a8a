//! The two pairs of a writer and a reader.

use sheet::Choices;

#[derive(Clone, Copy)]
pub enum Pair {
    Full,
    Date,
}

impl Pair {
    /// What it is among those with choices.
    pub fn choices(self) -> Choices {
        match self {
            Pair::Full => Choices::new(),
            Pair::Date => Choices::new().date(),
        }
    }
}
