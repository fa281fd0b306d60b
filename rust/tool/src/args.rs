//! The words after a command: an image's name and options.

use crate::failure::Failure;

/// Options that take a word, and those that take none.
const VALUED: [&str; 13] =
    ["--root", "--size", "--map", "--xid", "--order", "--depth", "--id", "--address", "--length", "--transaction", "--free", "--bitmap", "--slots"];
const PLAIN: [&str; 2] = ["--write", "--keys"];

pub struct Args {
    pub image: String,
    valued: Vec<(String, String)>,
    plain: Vec<String>,
}

impl Args {
    pub fn read(words: &[&str]) -> Result<Args, Failure> {
        let (mut image, mut valued, mut plain) = (None, Vec::new(), Vec::new());
        let mut words = words.iter();
        while let Some(&word) = words.next() {
            if VALUED.contains(&word) {
                let value = words.next().ok_or_else(|| Failure::usage(format!("{word} takes a word")))?;
                valued.push((word.to_string(), value.to_string()));
            } else if PLAIN.contains(&word) {
                plain.push(word.to_string());
            } else if word.starts_with('-') {
                return Err(Failure::usage(format!("there is no option {word}")));
            } else if image.replace(word.to_string()).is_some() {
                return Err(Failure::usage("one image is enough"));
            }
        }
        let image = image.ok_or_else(|| Failure::usage("which image?"))?;
        Ok(Args { image, valued, plain })
    }

    /// Options that a command does not look at are refused, so that none is passed over.
    pub fn only(&self, known: &[&str]) -> Result<(), Failure> {
        let all = self.valued.iter().map(|(name, _)| name).chain(&self.plain);
        match all.into_iter().find(|name| !known.contains(&name.as_str())) {
            Some(name) => Err(Failure::usage(format!("this command takes no {name}"))),
            None => Ok(()),
        }
    }

    pub fn has(&self, name: &str) -> bool {
        self.plain.iter().any(|word| word == name)
    }

    /// All values of an option, in order.
    pub fn all<'a>(&'a self, name: &'a str) -> impl Iterator<Item = &'a str> {
        self.valued.iter().filter(move |(word, _)| word == name).map(|(_, value)| value.as_str())
    }

    /// The value of an option that may be given once.
    pub fn word(&self, name: &str) -> Result<Option<&str>, Failure> {
        let mut values = self.valued.iter().filter(|(word, _)| word == name).map(|(_, value)| value.as_str());
        match (values.next(), values.next()) {
            (_, Some(_)) => Err(Failure::usage(format!("{name} is given twice"))),
            (value, None) => Ok(value),
        }
    }

    pub fn number(&self, name: &str) -> Result<Option<u64>, Failure> {
        self.word(name)?.map(|word| number(name, word)).transpose()
    }

    pub fn needed(&self, name: &str) -> Result<u64, Failure> {
        self.number(name)?.ok_or_else(|| Failure::usage(format!("{name} is missing")))
    }
}

/// A number, decimal or with 0x hexadecimal.
pub fn number(name: &str, word: &str) -> Result<u64, Failure> {
    let parsed = match word.strip_prefix("0x") {
        Some(digits) => u64::from_str_radix(digits, 16),
        None => word.parse(),
    };
    parsed.map_err(|_| Failure::usage(format!("{name} takes a number, and {word} is none")))
}
