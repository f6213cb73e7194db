//! The proved JSON Schema validator jskw, in process: the value and array keywords of Drafts 4, 6, 7, 2019-09 and
//! 2020-12. All other keywords are ignored, unless the options are [strict](ValidationOptions::with_strict). Schemas
//! and instances are JSON texts, as `&str`, `&[u8]`, `String` or `Vec<u8>`.
//!
//! ```
//! use jskw::{ValidationErrorKind, Validator};
//!
//! let validator = Validator::new(r#"{"required": ["name", "age"], "minProperties": 2}"#)?;
//! assert!(validator.is_valid(r#"{"name": "Ada", "age": 36}"#)?);
//! for error in validator.iter_errors(r#"{"age": 36}"#)? {
//!     println!("{error} (instance {}, schema {})", error.instance_path(), error.schema_path());
//! }
//! let missing = ValidationErrorKind::Required { property: "name".into() };
//! assert!(validator.iter_errors(r#"{"age": 36}"#)?.any(|error| *error.kind() == missing));
//! # Ok::<(), jskw::Error>(())
//! ```
//!
//! Numbers of an instance are exact: `0.1` is a tenth. If one cannot be, as `1e400`, the call returns
//! [`Error::Inexact`].
//!
//! ```
//! let cents = jskw::Validator::new(r#"{"items": {"minimum": 0}, "uniqueItems": true}"#)?;
//! assert!(!cents.is_valid("[12.50, 12.5]")?);
//! assert!(matches!(cents.is_valid("[1e400]"), Err(jskw::Error::Inexact { position, .. }) if position.column == 2));
//! # Ok::<(), jskw::Error>(())
//! ```
//!
//! A [`Validator`] serves any number of threads at once, and a clone shares its schema.
//!
//! ```
//! let validator = jskw::Validator::new(r#"{"type": "integer"}"#)?;
//! std::thread::scope(|scope| {
//!     for _ in 0..4 {
//!         scope.spawn(|| assert_eq!(validator.is_valid("1"), Ok(true)));
//!     }
//! });
//! # Ok::<(), jskw::Error>(())
//! ```
#![warn(missing_debug_implementations)]

#[cfg(doctest)]
#[doc = include_str!("../README.md")]
struct ReadmeExamples;

mod error;
mod errors;
mod evaluation;
mod handles;
mod json;
mod library;
mod settings;
mod unchecked;

pub use error::{Error, JsonType, Location, PathSegment, Position, Text, ValidationError, ValidationErrorKind};
pub use errors::Errors;
pub use evaluation::{Annotation, EvaluationNode};
pub use settings::{Draft, ValidationOptions, Vocabulary};
pub use unchecked::{UncheckedMember, UncheckedReason};

use error::{refusal, Document, Maker};
use handles::Handles;
use library::{lines, Report, INVALID, VALID};
use std::fmt;
use std::num::NonZeroU64;
use std::sync::Arc;

/// A compiled schema. Any number of threads may use it at once; a clone shares it.
#[derive(Clone)]
pub struct Validator {
    shared: Arc<Shared>,
}

struct Shared {
    handles: Handles,
    options: ValidationOptions,
    schema: Arc<Document>,
}

impl Validator {
    /// Compiles a schema of Draft 2020-12.
    ///
    /// # Errors
    ///
    /// As [`ValidationOptions::build`].
    pub fn new(schema: impl AsRef<[u8]>) -> Result<Validator, Error> {
        Validator::options().build(schema)
    }

    /// Returns settings, to be changed before a schema is compiled.
    pub fn options() -> ValidationOptions {
        ValidationOptions::default()
    }

    fn of(handles: Handles, options: ValidationOptions, schema: &[u8]) -> Validator {
        let schema = Arc::new(Document::new(schema));
        Validator { shared: Arc::new(Shared { handles, options, schema }) }
    }

    /// Returns the draft.
    pub fn draft(&self) -> Draft {
        self.shared.options.draft()
    }

    /// Returns the text of the schema.
    pub fn schema(&self) -> &str {
        &self.shared.schema.text
    }

    /// Returns the members of the schema that are not checked, as [`ValidationOptions::unchecked`].
    ///
    /// # Errors
    ///
    /// [`Error::NoMemory`].
    pub fn unchecked(&self) -> Result<Vec<UncheckedMember>, Error> {
        self.shared.options.unchecked(self.schema())
    }

    /// Returns whether the instance is valid.
    ///
    /// # Errors
    ///
    /// This and the other calls return [`Error::NotJson`], [`Error::Inexact`] or [`Error::NoMemory`].
    pub fn is_valid(&self, instance: impl AsRef<[u8]>) -> Result<bool, Error> {
        let instance = instance.as_ref();
        match self.shared.handles.with(|handle| handle.is_valid(instance)) {
            Ok(VALID) => Ok(true),
            Ok(INVALID) => Ok(false),
            // a report says where
            Ok(_) => self.report(Report::FirstError, instance).map(|_| false),
            Err(status) => Err(refusal(Text::Instance, status, "", instance)),
        }
    }

    /// Returns the first error of the instance, if there is one, as [`Error::Invalid`].
    ///
    /// # Errors
    ///
    /// Also as [`Validator::is_valid`].
    pub fn validate(&self, instance: impl AsRef<[u8]>) -> Result<(), Error> {
        let instance = instance.as_ref();
        let first = lines(&self.report(Report::FirstError, instance)?).next();
        first.map_or(Ok(()), |words| Err(Error::Invalid(Box::new(self.maker(instance).error(&words)))))
    }

    /// Returns an iterator over the errors of the instance, in the order of the keywords. It looks for some of them at
    /// a time.
    ///
    /// # Errors
    ///
    /// As [`Validator::is_valid`].
    pub fn iter_errors(&self, instance: impl AsRef<[u8]>) -> Result<Errors, Error> {
        Errors::new(self, instance.as_ref(), u64::MAX)
    }

    /// Returns an iterator over the first errors of the instance, at most `limit`; no more are looked for.
    ///
    /// # Errors
    ///
    /// As [`Validator::is_valid`].
    pub fn iter_first_errors(&self, instance: impl AsRef<[u8]>, limit: NonZeroU64) -> Result<Errors, Error> {
        Errors::new(self, instance.as_ref(), limit.get())
    }

    /// Returns the evaluation tree of the instance.
    ///
    /// # Errors
    ///
    /// As [`Validator::is_valid`].
    ///
    /// # Panics
    ///
    /// If the library is not the one that `include/jskw.h` describes.
    pub fn evaluate(&self, instance: impl AsRef<[u8]>) -> Result<EvaluationNode, Error> {
        let text = self.report(Report::Evaluation, instance.as_ref())?;
        Ok(evaluation::tree(&text).expect("the library writes trees as its header says"))
    }

    fn maker(&self, instance: &[u8]) -> Maker {
        Maker::new(instance, Arc::clone(&self.shared.schema))
    }

    fn report(&self, report: Report, instance: &[u8]) -> Result<String, Error> {
        match self.shared.handles.with(|handle| handle.report(report, instance)) {
            Ok((VALID | INVALID, text)) => Ok(text),
            Ok((status, text)) => Err(refusal(Text::Instance, status, &text, instance)),
            Err(status) => Err(refusal(Text::Instance, status, "", instance)),
        }
    }
}

impl fmt::Debug for Validator {
    fn fmt(&self, f: &mut fmt::Formatter<'_>) -> fmt::Result {
        f.debug_struct("Validator")
            .field("draft", &self.draft())
            .field("schema", &self.schema())
            .finish_non_exhaustive()
    }
}

/// The versions of the library and of the logic that it is proved in.
#[derive(Clone, Debug, PartialEq, Eq)]
pub struct Version {
    /// As `0.3.0`.
    pub library: String,
    /// As `rattle logic ..`; none if the library is not proved.
    pub logic: Option<String>,
}

/// Returns the versions of the library that is linked.
pub fn version() -> Version {
    let text = library::version();
    let mut lines = text.lines();
    let library = lines.next().unwrap_or_default();
    let logic = lines.next().filter(|line| *line != "unproved").map(str::to_string);
    Version { library: library.trim_start_matches("jskw ").to_string(), logic }
}
