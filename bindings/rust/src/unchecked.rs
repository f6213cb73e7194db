//! What is not checked of a schema.

use crate::error::{first_words, Document, Location, PathSegment};
use crate::library::lines;
use std::fmt;

/// Why a member of a schema is not checked.
#[derive(Clone, Debug, PartialEq, Eq, Hash)]
#[non_exhaustive]
pub enum UncheckedReason {
    /// The draft has a keyword of this name that asserts or applies something, and this library does not have it.
    NotImplemented,
    /// The draft has no keyword of this name, which may be misspelt.
    Unknown,
    /// A keyword of this library that asserts nothing as it stands: the draft or the vocabularies do not have it, it is
    /// overridden, what it goes with is absent, or it passes over such a value.
    Inactive,
    /// A member that a later one of the same name replaces, in an object anywhere in the schema's text.
    Repeated,
    /// A reason that a later library has, by its name.
    Other(String),
}

impl UncheckedReason {
    fn named(name: &str) -> UncheckedReason {
        match name {
            "notImplemented" => UncheckedReason::NotImplemented,
            "unknown" => UncheckedReason::Unknown,
            "inactive" => UncheckedReason::Inactive,
            "repeated" => UncheckedReason::Repeated,
            other => UncheckedReason::Other(other.to_string()),
        }
    }

    /// Returns the name of the reason: `notImplemented`, `unknown`, `inactive` or `repeated`.
    pub fn as_str(&self) -> &str {
        match self {
            UncheckedReason::NotImplemented => "notImplemented",
            UncheckedReason::Unknown => "unknown",
            UncheckedReason::Inactive => "inactive",
            UncheckedReason::Repeated => "repeated",
            UncheckedReason::Other(name) => name,
        }
    }
}

/// A member of a schema that is not checked: it asserts nothing. It is displayed as its location and its reason.
#[derive(Clone, Debug, PartialEq, Eq, Hash)]
pub struct UncheckedMember {
    location: Location,
    reason: UncheckedReason,
}

impl UncheckedMember {
    /// Returns the name of the member.
    pub fn keyword(&self) -> &str {
        match self.location.segments().last() {
            Some(PathSegment::Property(name)) => name,
            _ => "",
        }
    }

    /// Returns its location in the schema.
    pub fn location(&self) -> &Location {
        &self.location
    }

    /// Returns why it is not checked.
    pub fn reason(&self) -> &UncheckedReason {
        &self.reason
    }
}

impl fmt::Display for UncheckedMember {
    fn fmt(&self, f: &mut fmt::Formatter<'_>) -> fmt::Result {
        write!(f, "{} ({})", self.location, self.reason.as_str())
    }
}

/// Returns the members that a text has, a line each.
pub(crate) fn members(text: &str, schema: &[u8]) -> Vec<UncheckedMember> {
    let document = Document::new(schema);
    let member = |words: Vec<String>| {
        let [location, reason] = first_words(&words);
        UncheckedMember { location: document.find(location).0, reason: UncheckedReason::named(reason) }
    };
    lines(text).map(member).collect()
}
