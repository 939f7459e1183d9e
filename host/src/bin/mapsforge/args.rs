//! The words behind a command.

use crate::Failure;
use mapsforge::{NoKey, Position, TagFilter};
use std::str::FromStr;

/// An option: its names, and whether a value follows it.
pub struct Choice {
    pub long: &'static str,
    pub short: Option<&'static str>,
    pub valued: bool,
}

/// The words behind a command, sorted.
pub struct Args {
    command: &'static str,
    help: bool,
    plain: Vec<String>,
    chosen: Vec<(&'static str, String)>,
}

impl Args {
    /// Sorts the words. An option that the command does not have is a mistake, unless help is asked for.
    pub fn parse(
        command: &'static str,
        choices: &'static [Choice],
        words: impl Iterator<Item = String>,
    ) -> Result<Args, Failure> {
        let words: Vec<String> = words.collect();
        let mut args = Args { command, help: false, plain: Vec::new(), chosen: Vec::new() };
        if words
            .iter()
            .take_while(|word| *word != "--")
            .any(|word| word == "--help" || word == "-h")
        {
            args.help = true;
            return Ok(args);
        }
        let mut words = words.into_iter();
        while let Some(word) = words.next() {
            if word == "--" {
                args.plain.extend(words);
                break;
            }
            if !is_option(&word) {
                args.plain.push(word);
                continue;
            }
            let (name, given) = match word.split_once('=') {
                Some((name, value)) => (name, Some(value.to_string())),
                None => (word.as_str(), None),
            };
            let choice = choices
                .iter()
                .find(|choice| name == choice.long || Some(name) == choice.short)
                .ok_or_else(|| args.mistake(&format!("has no option {name}")))?;
            let value = match (choice.valued, given) {
                (true, Some(value)) => value,
                (true, None) => words
                    .next()
                    .ok_or_else(|| args.mistake(&format!("needs a value behind {name}")))?,
                (false, None) => String::new(),
                (false, Some(_)) => return Err(args.mistake(&format!("takes no value for {name}"))),
            };
            args.chosen.push((choice.long, value));
        }
        Ok(args)
    }

    /// Whether help was asked for.
    pub fn help(&self) -> bool {
        self.help
    }

    /// Exactly so many plain words, else a mistake that names them.
    pub fn plain<const N: usize>(&self, names: [&str; N]) -> Result<[&str; N], Failure> {
        if self.plain.len() != N {
            let text = match self.plain.get(N) {
                Some(extra) => format!("does not know what to do with {extra:?}"),
                None => format!("needs {}", names[self.plain.len()..].join(" and ")),
            };
            return Err(self.mistake(&text));
        }
        Ok(std::array::from_fn(|k| self.plain[k].as_str()))
    }

    /// All plain words, at least one.
    pub fn some(&self, name: &str) -> Result<&[String], Failure> {
        if self.plain.is_empty() {
            return Err(self.mistake(&format!("needs {name}")));
        }
        Ok(&self.plain)
    }

    /// Whether an option was given.
    pub fn has(&self, long: &str) -> bool {
        self.value(long).is_some()
    }

    /// The last value of an option.
    pub fn value(&self, long: &str) -> Option<&str> {
        self.chosen.iter().rev().find(|(name, _)| *name == long).map(|(_, value)| value.as_str())
    }

    /// The last value of an option as a number.
    pub fn number<T: FromStr>(&self, long: &str, what: &str) -> Result<Option<T>, Failure> {
        let Some(value) = self.value(long) else {
            return Ok(None);
        };
        let number = value
            .parse()
            .map_err(|_| self.mistake(&format!("takes {what} behind {long}, not {value:?}")))?;
        Ok(Some(number))
    }

    /// The last value of an option as numbers with commas between them.
    pub fn numbers<const N: usize>(
        &self,
        long: &str,
        what: &str,
    ) -> Result<Option<[f64; N]>, Failure> {
        let Some(value) = self.value(long) else {
            return Ok(None);
        };
        let numbers = numbers(value)
            .ok_or_else(|| self.mistake(&format!("takes {what} behind {long}, not {value:?}")))?;
        Ok(Some(numbers))
    }

    /// The tags that all values of an option name, with commas between them.
    pub fn tags(&self, long: &str) -> Result<Vec<TagFilter>, Failure> {
        let values = self.chosen.iter().filter(|(name, _)| *name == long);
        let words = values.flat_map(|(_, value)| value.split(','));
        let tags = words.map(|word| {
            word.trim().parse().map_err(|NoKey| {
                self.mistake(&format!("takes KEY or KEY=VALUE behind {long}, not {word:?}"))
            })
        });
        tags.collect()
    }

    pub fn mistake(&self, text: &str) -> Failure {
        let command = self.command;
        Failure::Mistake(format!("{command} {text}: see `mapsforge {command} --help`"))
    }
}

/// Whether a word is an option: `-` is standard input, and a number may be below 0.
fn is_option(word: &str) -> bool {
    let Some(rest) = word.strip_prefix('-') else {
        return false;
    };
    !rest.is_empty() && !rest.starts_with(|letter: char| letter.is_ascii_digit() || letter == '.')
}

/// So many numbers with commas between them.
fn numbers<const N: usize>(text: &str) -> Option<[f64; N]> {
    let numbers: Vec<f64> =
        text.split(',').map(|word| word.trim().parse().ok()).collect::<Option<_>>()?;
    let numbers: [f64; N] = numbers.try_into().ok()?;
    numbers.iter().all(|number| number.is_finite()).then_some(numbers)
}

/// A place on earth: LAT,LON in degrees.
pub fn position(text: &str) -> Option<Position> {
    let [latitude, longitude] = numbers(text)?;
    let on_earth = latitude.abs() <= 90.0 && longitude.abs() <= 180.0;
    on_earth.then_some(Position { latitude, longitude })
}

#[cfg(test)]
mod tests {
    use super::{is_option, position};

    #[test]
    fn options() {
        let options = ["-o", "--at", "-z", "--"].map(is_option);
        assert_eq!(options, [true; 4]);
        assert_eq!(["-", "-33.9,18.4", "-.5,1", "a-b", ""].map(is_option), [false; 5]);
    }

    #[test]
    fn positions() {
        let at = position("62.5, -0.25").expect("it is one");
        assert_eq!((at.latitude, at.longitude), (62.5, -0.25));
        for text in ["", "62", "62;1", "91,0", "0,181", "1,2,3", "nan,0", "inf,0"] {
            assert!(position(text).is_none(), "{text}");
        }
    }
}
