//! Stands for `op/parsed_parameters.rs`: reads a step's parameters by an operator's gamut.
//!
//! Four rules are the shim's own, document 01's words: a key that the operator lacks is refused (11), and so is a flag
//! other than bare or `=true`, and a series element not in decimal form (12); and every operator takes `inv`, `omit_fwd` and
//! `omit_inv`. It refuses by `Error::Shim`, so that nobody takes this for the Rust's word. A series or text that is not
//! given has the gamut's default, and none at all where that is empty: without this no `stack` could be made.

use crate::authoring::*;
use std::collections::BTreeSet;

#[derive(Debug)]
pub struct ParsedParameters {
    pub name: String,
    pub boolean: BTreeSet<&'static str>,
    pub series: BTreeMap<&'static str, Vec<f64>>,
    pub text: BTreeMap<&'static str, String>,
    /// All that was given, by the step's own words.
    pub given: BTreeMap<String, String>,
}

impl ParsedParameters {
    pub fn new(
        parameters: &RawParameters,
        gamut: &[OpParameter],
    ) -> Result<ParsedParameters, Error> {
        let mut given = parameters.instantiated_as.split_into_parameters();
        let name = given.remove("_name").unwrap_or_default();
        let known = |key: &str| MARKS.contains(&key) || gamut.iter().any(|one| one.key() == key);
        if !given.keys().all(|key| known(key)) {
            return Err(Error::Shim(11));
        }
        let mut parsed = ParsedParameters {
            name,
            boolean: BTreeSet::new(),
            series: BTreeMap::new(),
            text: BTreeMap::new(),
            given,
        };
        for key in MARKS {
            if parsed.flag(key)? && key != "inv" {
                parsed.boolean.insert(key);
            }
        }
        for one in gamut {
            match *one {
                OpParameter::Flag { key } => {
                    if parsed.flag(key)? {
                        parsed.boolean.insert(key);
                    }
                }
                OpParameter::Series { key, default } => {
                    if let Some(value) = parsed.value(key, default) {
                        let numbers: Option<_> = value.split(',').map(decimal).collect();
                        let numbers = numbers.ok_or(Error::Shim(12))?;
                        parsed.series.insert(key, numbers);
                    }
                }
                OpParameter::Text { key, default } => {
                    if let Some(value) = parsed.value(key, default) {
                        parsed.text.insert(key, value);
                    }
                }
            }
        }
        Ok(parsed)
    }

    fn flag(&self, key: &str) -> Result<bool, Error> {
        match self.given.get(key).map(String::as_str) {
            None => Ok(false),
            Some("true") => Ok(true),
            Some(_) => Err(Error::Shim(12)),
        }
    }

    fn value(&self, key: &str, default: Option<&'static str>) -> Option<String> {
        let given = self.given.get(key).cloned();
        given.or(default.filter(|value| !value.is_empty()).map(String::from))
    }

    pub fn boolean(&self, key: &str) -> bool {
        self.boolean.contains(key)
    }

    pub fn series(&self, key: &str) -> Result<&[f64], Error> {
        let numbers = self.series.get(key);
        numbers
            .map(Vec::as_slice)
            .ok_or(Error::MissingParam(key.to_string()))
    }

    pub fn text(&self, key: &str) -> Result<String, Error> {
        self.text
            .get(key)
            .cloned()
            .ok_or(Error::MissingParam(key.to_string()))
    }

    pub fn series_as_i64(&self, key: &str) -> Result<Vec<i64>, Error> {
        Ok(self
            .series(key)?
            .iter()
            .map(|number| *number as i64)
            .collect())
    }

    pub fn series_as_usize(&self, key: &str) -> Result<Vec<usize>, Error> {
        Ok(self
            .series(key)?
            .iter()
            .map(|number| *number as usize)
            .collect())
    }
}

/// A number in decimal form: optional minus, 1 to 9 digits, optionally a point and 1 to 6 digits.
fn decimal(piece: &str) -> Option<f64> {
    let size = piece.strip_prefix('-').unwrap_or(piece);
    let (whole, fraction) = size.split_once('.').unwrap_or((size, "0"));
    let digits = |part: &str, most| {
        (1..=most).contains(&part.len()) && part.bytes().all(|byte| byte.is_ascii_digit())
    };
    if digits(whole, 9) && digits(fraction, 6) {
        piece.parse().ok()
    } else {
        None
    }
}
