//! The options that the generator, the recorder and the comparer share.

use crate::check::CheckRequest;
use crate::choices::{Books, Edition};
use crate::generator::{CheckGenerator, Generator};
use crate::prepared;
use crate::request::{Op, Request};
use std::num::NonZeroUsize;
use std::str::FromStr;

/// How many requests are generated where no count is named.
const COUNT: usize = 2_100_000;

pub struct Options {
    pub seed: u64,
    pub count: Option<usize>,
    /// Of a longer run only each request of this step is taken.
    pub every: NonZeroUsize,
    /// The usual ones where none is named.
    pub ops: Option<Vec<Op>>,
    /// Lists in the place of the usual ones.
    pub lists: bool,
    /// Patterns to mend in their place.
    pub mends: bool,
    /// Stamps in their place.
    pub stamps: bool,
    /// Requests that are asked twice, also by a prepared pattern.
    pub prepared: bool,
    /// Which books the requests come with; none where none is named.
    pub books: Option<Books>,
    /// Of a check; both where none is named.
    pub edition: Option<Edition>,
    /// A file of requests, instead of generated ones.
    pub requests: Option<String>,
    /// The program to compare, with its arguments.
    pub program: Vec<String>,
}

impl Options {
    /// Of requests, each of an op.
    pub fn of_requests(args: impl Iterator<Item = String>) -> Result<Options, String> {
        let options = Options::from_args(args)?;
        match options.edition {
            Some(_) => Err("the edition is in the name of an op".to_string()),
            None if options.prepared && options.names_requests() => Err(
                "prepared patterns have requests of their own, with and without books".to_string(),
            ),
            None if options.ways_to_name_ops() > 1 => {
                Err("lists, patterns to mend and stamps are ops of their own".to_string())
            }
            None if (options.mends || options.stamps) && options.books.is_some() => {
                Err("patterns to mend and stamps have no book".to_string())
            }
            None => Ok(options),
        }
    }

    /// Of checks, which have no ops.
    pub fn of_checks(args: impl Iterator<Item = String>) -> Result<Options, String> {
        let options = Options::from_args(args)?;
        match options.ops {
            Some(_) => Err("there is one op".to_string()),
            None if options.lists || options.mends || options.stamps || options.prepared => {
                Err("that is no check".to_string())
            }
            None => Ok(options),
        }
    }

    fn names_requests(&self) -> bool {
        self.ways_to_name_ops() > 0 || self.books.is_some() || self.requests.is_some()
    }

    fn ways_to_name_ops(&self) -> usize {
        let named = [self.lists, self.mends, self.stamps, self.ops.is_some()];
        named.into_iter().filter(|named| *named).count()
    }

    fn from_args(mut args: impl Iterator<Item = String>) -> Result<Options, String> {
        let mut options = Options {
            seed: 1,
            count: None,
            every: NonZeroUsize::MIN,
            ops: None,
            lists: false,
            mends: false,
            stamps: false,
            prepared: false,
            books: None,
            edition: None,
            requests: None,
            program: Vec::new(),
        };
        while let Some(arg) = args.next() {
            match arg.as_str() {
                "--seed" => options.seed = number(args.next())?,
                "--count" => options.count = Some(number(args.next())?),
                "--every" => options.every = number(args.next())?,
                "--ops" => options.ops = Some(ops(&word(args.next())?)?),
                "--lists" => options.lists = true,
                "--mends" => options.mends = true,
                "--stamps" => options.stamps = true,
                "--prepared" => options.prepared = true,
                "--books" => options.books = Some(books(&word(args.next())?)?),
                "--edition" => options.edition = Some(edition(&word(args.next())?)?),
                "--requests" => options.requests = Some(word(args.next())?),
                "--" => options.program = args.by_ref().collect(),
                _ => return Err(format!("unknown option {arg}")),
            }
        }
        Ok(options)
    }

    pub fn generated(&self) -> impl Iterator<Item = Request> {
        let ops = match &self.ops {
            Some(named) => named.clone(),
            None if self.lists => Op::LISTS.to_vec(),
            None if self.mends => Op::MENDS.to_vec(),
            None if self.stamps => Op::STAMPS.to_vec(),
            None => Op::usual(self.books),
        };
        Generator::with(self.books, self.seed, ops)
            .step_by(self.every.get())
            .take(self.count.unwrap_or(COUNT))
    }

    /// Each of so many requests twice.
    pub fn generated_prepared(&self) -> impl Iterator<Item = String> {
        prepared::requests(self.seed)
            .step_by(self.every.get())
            .take(self.count.unwrap_or(COUNT))
            .flat_map(prepared::both_ways)
    }

    /// A count that is not named goes through the list of patterns once.
    pub fn generated_checks(&self) -> impl Iterator<Item = CheckRequest> {
        let editions = self.edition.map_or(Edition::ALL.to_vec(), |one| vec![one]);
        let whole_list = editions.len() * CheckGenerator::whole_list();
        CheckGenerator::with(self.books, self.seed, editions)
            .step_by(self.every.get())
            .take(self.count.unwrap_or(whole_list))
    }
}

fn word(arg: Option<String>) -> Result<String, String> {
    arg.ok_or_else(|| "an option lacks its value".to_string())
}

fn number<T: FromStr>(arg: Option<String>) -> Result<T, String> {
    let word = word(arg)?;
    word.parse()
        .map_err(|_| format!("{word} is no number for this option"))
}

fn edition(name: &str) -> Result<Edition, String> {
    Edition::named(name).ok_or_else(|| format!("{name} is no edition"))
}

fn books(name: &str) -> Result<Books, String> {
    Books::named(name).ok_or_else(|| format!("{name} are no books"))
}

fn ops(names: &str) -> Result<Vec<Op>, String> {
    names
        .split(',')
        .map(|name| Op::named(name).ok_or_else(|| format!("{name} is no request")))
        .collect()
}
