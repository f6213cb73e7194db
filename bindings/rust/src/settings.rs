//! Settings of a schema.

use crate::error::{refusal, Error, Text};
use crate::handles::Handles;
use crate::json::quoted;
use crate::library::{self, Handle, INVALID, VALID};
use crate::unchecked::{members, UncheckedMember};
use crate::Validator;

/// A draft of JSON Schema. `$schema` is not read.
#[derive(Clone, Copy, Debug, Default, PartialEq, Eq, Hash)]
pub enum Draft {
    Draft4 = 4,
    Draft6 = 6,
    Draft7 = 7,
    Draft201909 = 2019,
    #[default]
    Draft202012 = 2020,
}

/// A vocabulary. Drafts 4, 6 and 7 have all of them, whatever is set.
#[derive(Clone, Copy, Debug, PartialEq, Eq, Hash)]
pub enum Vocabulary {
    Core = 1,
    Applicator = 2,
    Validation = 4,
}

/// Settings of a schema: Draft 2020-12 with all vocabularies, unless they are changed.
///
/// ```
/// use jskw::{Draft, Validator};
///
/// let validator = Validator::options().with_draft(Draft::Draft4).build(r#"{"type": "integer"}"#)?;
/// assert!(!validator.is_valid("1.0")?);
/// # Ok::<(), jskw::Error>(())
/// ```
#[derive(Clone, Debug)]
pub struct ValidationOptions {
    draft: Draft,
    vocabularies: u32,
    overridden: Vec<String>,
    strict: bool,
}

impl Default for ValidationOptions {
    fn default() -> Self {
        ValidationOptions { draft: Draft::default(), vocabularies: 7, overridden: Vec::new(), strict: false }
    }
}

impl ValidationOptions {
    /// Sets the draft.
    #[must_use]
    pub fn with_draft(mut self, draft: Draft) -> Self {
        self.draft = draft;
        self
    }

    /// Sets the vocabularies.
    #[must_use]
    pub fn with_vocabularies(mut self, vocabularies: impl IntoIterator<Item = Vocabulary>) -> Self {
        self.vocabularies = vocabularies.into_iter().fold(0, |set, vocabulary| set | vocabulary as u32);
        self
    }

    /// Sets the names of keywords that are not to be asserted.
    #[must_use]
    pub fn with_overridden(mut self, names: impl IntoIterator<Item = impl Into<String>>) -> Self {
        self.overridden = names.into_iter().map(Into::into).collect();
        self
    }

    /// Sets whether a schema with members that are not checked is refused; unless it is set, it is not.
    ///
    /// ```
    /// use jskw::{Error, Validator};
    ///
    /// let strict = Validator::options().with_strict(true);
    /// assert!(strict.build(r#"{"minimum": 1, "title": "a number"}"#).is_ok());
    /// assert!(matches!(strict.build(r#"{"minimun": 1}"#), Err(Error::Unchecked(members)) if members.len() == 1));
    /// ```
    #[must_use]
    pub fn with_strict(mut self, strict: bool) -> Self {
        self.strict = strict;
        self
    }

    /// Compiles a schema, a JSON text.
    ///
    /// # Errors
    ///
    /// [`Error::Schema`] if the schema does not compile, [`Error::NotJson`] or [`Error::NoMemory`]; if the options are
    /// strict, [`Error::Unchecked`] if it has members that are not checked.
    pub fn build(&self, schema: impl AsRef<[u8]>) -> Result<Validator, Error> {
        let schema = schema.as_ref();
        let mut handle = Handle::empty();
        match handle.compile(self.draft as u32, self.vocabularies, &self.overridden(), schema) {
            (VALID, _) => (),
            (status, text) => return Err(refusal(Text::Schema, status, &text, schema)),
        }
        let unchecked = if self.strict { self.unchecked(schema)? } else { Vec::new() };
        if !unchecked.is_empty() {
            return Err(Error::Unchecked(unchecked));
        }
        Ok(Validator::of(Handles::new(handle), self.clone(), schema))
    }

    /// Returns the members of a schema, and of the subschemas that keywords of this library apply, that are not
    /// checked under these settings, in the order of their names. What stands below one is not looked at. If there are
    /// none, all that the schema says is asserted, if it compiles.
    ///
    /// ```
    /// use jskw::{UncheckedReason, Validator};
    ///
    /// let unchecked = Validator::options().unchecked(r#"{"items": {"pattern": "a"}, "title": "names"}"#)?;
    /// assert_eq!((unchecked[0].keyword(), unchecked[0].reason()), ("pattern", &UncheckedReason::NotImplemented));
    /// assert_eq!((unchecked[0].location().to_string(), unchecked.len()), ("/items/pattern".into(), 1));
    /// # Ok::<(), jskw::Error>(())
    /// ```
    ///
    /// # Errors
    ///
    /// [`Error::NotJson`] or [`Error::NoMemory`].
    pub fn unchecked(&self, schema: impl AsRef<[u8]>) -> Result<Vec<UncheckedMember>, Error> {
        let schema = schema.as_ref();
        match library::unchecked(self.draft as u32, self.vocabularies, &self.overridden(), schema) {
            (VALID | INVALID, text) => Ok(members(&text, schema)),
            (status, text) => Err(refusal(Text::Schema, status, &text, schema)),
        }
    }

    pub(crate) fn draft(&self) -> Draft {
        self.draft
    }

    /// Returns the overridden names as a JSON array.
    fn overridden(&self) -> String {
        let names: Vec<String> = self.overridden.iter().map(|name| quoted(name)).collect();
        format!("[{}]", names.join(","))
    }
}
