//! The errors of an instance, some at a time.

use crate::error::{Error, Maker, ValidationError};
use crate::library::{words, Report};
use crate::Validator;
use std::iter::FusedIterator;

/// So many errors are looked for at first, then each time so many times as many: all of that is little more than twice
/// the work of one list.
const FIRST: u64 = 64;
const FURTHER: u64 = 16;

/// An iterator over the errors of an instance, in the order of the keywords. The first 64 are looked for at once, and
/// more as they are asked for. It has the instance and the validator of its own.
///
/// # Panics
///
/// If memory runs out while it looks for more errors, `next` panics.
#[derive(Debug)]
pub struct Errors {
    validator: Validator,
    maker: Maker,
    /// The lines of the errors that were looked for, where the next one begins, and how many they may be.
    lines: String,
    at: usize,
    asked: u64,
    given: u64,
    limit: u64,
}

impl Errors {
    pub(crate) fn new(validator: &Validator, instance: &[u8], limit: u64) -> Result<Errors, Error> {
        let asked = FIRST.min(limit);
        let lines = validator.report(Report::Errors(asked), instance)?;
        let (validator, maker) = (validator.clone(), validator.maker(instance));
        Ok(Errors { validator, maker, lines, at: 0, asked, given: 0, limit })
    }

    /// Returns the next line that was looked for.
    fn line(&mut self) -> Option<&str> {
        let rest = &self.lines[self.at..];
        let end = rest.find('\n')?;
        self.at += end + 1;
        Some(&rest[..end])
    }

    /// Looks for more errors, if there may be more, and passes over those that were given.
    fn turn(&mut self) -> Option<()> {
        if self.given < self.asked || self.asked == self.limit {
            return None;
        }
        self.asked = self.asked.saturating_mul(FURTHER).min(self.limit);
        let lines = self.validator.report(Report::Errors(self.asked), self.maker.instance());
        self.lines = lines.expect("the instance was checked before, so memory ran out");
        self.at = 0;
        (0..self.given).try_for_each(|_| self.line().map(|_| ()))
    }
}

impl Iterator for Errors {
    type Item = ValidationError;

    fn next(&mut self) -> Option<ValidationError> {
        if self.at == self.lines.len() {
            self.turn()?;
        }
        let words = words(self.line()?);
        self.given += 1;
        Some(self.maker.error(&words))
    }
}

impl FusedIterator for Errors {}
