//! Numbers of the command line: where one isn't right it is said which are.

use crate::protocol::LAST_QUEUE;
use clap::ValueEnum;
use std::str::FromStr;
use std::time::Duration;

/// A month.
const MAX_SECONDS: f64 = 2_678_400.0;

fn number<T: FromStr + PartialOrd>(word: &str, (least, most): (T, T), what: &str) -> Result<T, String> {
    word.parse().ok().filter(|number| *number >= least && *number <= most).ok_or_else(|| what.to_string())
}

pub fn queue(word: &str) -> Result<u8, String> {
    number(word, (0, LAST_QUEUE), &format!("a queue is a number from 0 to {LAST_QUEUE}"))
}

pub fn priority(word: &str) -> Result<u8, String> {
    number(word, (0, 255), "a priority is a number from 0 to 255")
}

pub fn node(word: &str) -> Result<u8, String> {
    number(word, (0, 127), "a node is a number from 0 to 127")
}

/// Seconds, also parts of one.
pub fn seconds(word: &str) -> Result<Duration, String> {
    let number = word.parse().ok().filter(|number: &f64| (0.0..=MAX_SECONDS).contains(number));
    number.map(Duration::from_secs_f64).ok_or_else(|| format!("seconds are a number from 0 to {MAX_SECONDS}"))
}

pub fn tries(word: &str) -> Result<u64, String> {
    number(word, (1, 1_000_000), "tries are a number from 1 to 1000000")
}

pub fn key(word: &str) -> Result<String, String> {
    let is_one = (1..=200).contains(&word.len());
    is_one.then(|| word.to_string()).ok_or_else(|| "a key is a text of 1 to 200 bytes".to_string())
}

pub fn slots(word: &str) -> Result<u32, String> {
    number(word, (4, 4096), "slots are a number from 4 to 4096")
}

pub fn places(word: &str) -> Result<usize, String> {
    number(word, (1, 128), "places are a number from 1 to 128")
}

/// The bytes of a file for each sector of 512.
#[derive(Clone, Copy, PartialEq, Eq, ValueEnum)]
pub enum Stride {
    #[value(name = "512")]
    Packed,
    #[value(name = "4096")]
    Apart,
}

impl Stride {
    pub fn bytes(self) -> u32 {
        match self {
            Stride::Packed => 512,
            Stride::Apart => 4096,
        }
    }
}

#[cfg(test)]
mod tests {
    use super::*;

    #[test]
    fn numbers_that_are_none_are_told_what_would_be_one() {
        for word in ["16", "-1", "x", "", "256"] {
            assert_eq!(queue(word), Err("a queue is a number from 0 to 15".to_string()), "{word}");
        }
        assert_eq!((queue("15"), priority("255"), node("127"), slots("4096")), (Ok(15), Ok(255), Ok(127), Ok(4096)));
        assert_eq!((seconds("1.5"), tries("3"), key("a b")), (Ok(Duration::from_millis(1500)), Ok(3), Ok("a b".to_string())));
        assert!(["-1", "nan", "inf", "x", "2678401"].iter().all(|word| seconds(word).is_err()) && tries("0").is_err() && key("").is_err());
        assert!([priority("256"), node("128")].iter().all(Result::is_err) && slots("3").is_err() && slots("4097").is_err());
        assert_eq!(["0", "1", "128", "129"].map(|word| places(word).ok()), [None, Some(1), Some(128), None]);
    }
}
