//! Values that serde writes, as instances and schemas of the validator [`jskw`], and texts that are checked before
//! they are read.
//!
//! ```
//! use jskw_serde_json::{validator, CheckValues};
//! use serde_json::json;
//!
//! let validator = validator(&json!({"required": ["name", "age"], "minProperties": 2}))?;
//! assert!(validator.is_valid_value(&json!({"name": "Ada", "age": 36}))?);
//! let errors: Vec<_> = validator.iter_value_errors(&json!({"age": 36}))?.collect();
//! assert_eq!(errors[1].schema_path().to_string(), "/required");
//!
//! // a text is read only if it is valid
//! let person: std::collections::BTreeMap<String, serde_json::Value> = validator.read(r#"{"name": "Ada", "age": 36}"#)?;
//! assert_eq!(person["age"], 36);
//! # Ok::<(), jskw_serde_json::Error>(())
//! ```
//!
//! A number counts as it is written: the float `0.1` is the decimal 0.1, exactly, and `1e300` is
//! [`jskw::Error::Inexact`].

use jskw::{Errors, EvaluationNode, ValidationOptions, Validator};
use serde::{de::DeserializeOwned, Serialize};
use std::fmt;

/// Why a value was not checked, or a text not read.
#[derive(Debug)]
pub enum Error {
    /// What the validator says.
    Jskw(jskw::Error),
    /// serde cannot write the value as JSON, or not read the text as the type.
    Serde(serde_json::Error),
}

impl fmt::Display for Error {
    fn fmt(&self, f: &mut fmt::Formatter<'_>) -> fmt::Result {
        match self {
            Error::Jskw(error) => error.fmt(f),
            Error::Serde(error) => error.fmt(f),
        }
    }
}

impl std::error::Error for Error {
    fn source(&self) -> Option<&(dyn std::error::Error + 'static)> {
        match self {
            Error::Jskw(error) => Some(error),
            Error::Serde(error) => Some(error),
        }
    }
}

impl From<jskw::Error> for Error {
    fn from(error: jskw::Error) -> Error {
        Error::Jskw(error)
    }
}

impl From<serde_json::Error> for Error {
    fn from(error: serde_json::Error) -> Error {
        Error::Serde(error)
    }
}

/// Compiles a schema of Draft 2020-12.
///
/// # Errors
///
/// As [`compile`].
pub fn validator<S: Serialize + ?Sized>(schema: &S) -> Result<Validator, Error> {
    compile(&Validator::options(), schema)
}

/// Compiles a schema under settings.
///
/// # Errors
///
/// As [`ValidationOptions::build`], and [`Error::Serde`] if the schema cannot be written as JSON.
pub fn compile<S: Serialize + ?Sized>(options: &ValidationOptions, schema: &S) -> Result<Validator, Error> {
    Ok(options.build(serde_json::to_vec(schema)?)?)
}

/// The calls of a [`Validator`] for values that serde writes. Each fails as the call on the text does, and with
/// [`Error::Serde`] if the value cannot be written as JSON.
pub trait CheckValues {
    /// Returns whether the value is valid.
    ///
    /// # Errors
    ///
    /// As [`Validator::is_valid`].
    fn is_valid_value<V: Serialize + ?Sized>(&self, value: &V) -> Result<bool, Error>;

    /// Returns the first error of the value, if there is one, as [`jskw::Error::Invalid`].
    ///
    /// # Errors
    ///
    /// As [`Validator::validate`].
    fn validate_value<V: Serialize + ?Sized>(&self, value: &V) -> Result<(), Error>;

    /// Returns an iterator over the errors of the value, in the order of the keywords.
    ///
    /// # Errors
    ///
    /// As [`Validator::iter_errors`].
    fn iter_value_errors<V: Serialize + ?Sized>(&self, value: &V) -> Result<Errors, Error>;

    /// Returns the evaluation tree of the value.
    ///
    /// # Errors
    ///
    /// As [`Validator::evaluate`].
    fn evaluate_value<V: Serialize + ?Sized>(&self, value: &V) -> Result<EvaluationNode, Error>;

    /// Reads a text, if it is valid.
    ///
    /// # Errors
    ///
    /// As [`Validator::validate`], and [`Error::Serde`] if a valid text is no value of the type.
    fn read<V: DeserializeOwned>(&self, text: impl AsRef<[u8]>) -> Result<V, Error>;
}

impl CheckValues for Validator {
    fn is_valid_value<V: Serialize + ?Sized>(&self, value: &V) -> Result<bool, Error> {
        Ok(self.is_valid(serde_json::to_vec(value)?)?)
    }

    fn validate_value<V: Serialize + ?Sized>(&self, value: &V) -> Result<(), Error> {
        Ok(self.validate(serde_json::to_vec(value)?)?)
    }

    fn iter_value_errors<V: Serialize + ?Sized>(&self, value: &V) -> Result<Errors, Error> {
        Ok(self.iter_errors(serde_json::to_vec(value)?)?)
    }

    fn evaluate_value<V: Serialize + ?Sized>(&self, value: &V) -> Result<EvaluationNode, Error> {
        Ok(self.evaluate(serde_json::to_vec(value)?)?)
    }

    fn read<V: DeserializeOwned>(&self, text: impl AsRef<[u8]>) -> Result<V, Error> {
        self.validate(text.as_ref())?;
        Ok(serde_json::from_slice(text.as_ref())?)
    }
}
