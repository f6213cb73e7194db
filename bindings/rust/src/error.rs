//! Errors as data.

use crate::json::{compact, read, Kind, Value};
use crate::library::{lines, BAD_SCHEMA, INEXACT, NOT_JSON, NO_MEMORY};
use crate::unchecked::UncheckedMember;
use std::collections::BTreeMap;
use std::fmt;
use std::ops::Range;
use std::sync::{Arc, Mutex, PoisonError};

/// A type of JSON Schema.
#[derive(Clone, Copy, Debug, PartialEq, Eq, Hash)]
pub enum JsonType {
    Array,
    Boolean,
    Integer,
    Null,
    Number,
    Object,
    String,
}

/// What failed, and what was expected. Limits are whole numbers from -2^63 to 2^64-1.
#[derive(Clone, Debug, PartialEq, Eq)]
#[non_exhaustive]
pub enum ValidationErrorKind {
    /// The array has more items than `items` has schemas, and `additionalItems` is `false`.
    AdditionalItems {
        limit: u64,
    },
    /// A value of a schema cannot be compiled: a number that is not whole, or an unknown name of a type.
    CompileError,
    /// The value is not the constant, a JSON text. All errors of the keyword share it.
    Constant {
        expected_value: Arc<str>,
    },
    /// Too few or too many items match; the schema path says which bound.
    Contains,
    /// The value is none of the options, a JSON array. All errors of the keyword share it.
    Enum {
        options: Arc<str>,
    },
    ExclusiveMaximum {
        limit: i128,
    },
    ExclusiveMinimum {
        limit: i128,
    },
    /// The schema is `false`.
    FalseSchema,
    MaxItems {
        limit: u64,
    },
    Maximum {
        limit: i128,
    },
    MaxProperties {
        limit: u64,
    },
    MinItems {
        limit: u64,
    },
    Minimum {
        limit: i128,
    },
    MinProperties {
        limit: u64,
    },
    MultipleOf {
        multiple_of: u64,
    },
    /// The object has no member of this name.
    Required {
        property: String,
    },
    /// The value is of none of these types.
    Type {
        types: Vec<JsonType>,
    },
    UniqueItems,
    /// A kind that a later library has, by its name.
    Other {
        keyword: String,
    },
}

impl ValidationErrorKind {
    /// Returns the keyword that failed; `falseSchema` and `compileError` are none.
    pub fn keyword(&self) -> &str {
        match self {
            Self::AdditionalItems { .. } => "additionalItems",
            Self::CompileError => "compileError",
            Self::Constant { .. } => "const",
            Self::Contains => "contains",
            Self::Enum { .. } => "enum",
            Self::ExclusiveMaximum { .. } => "exclusiveMaximum",
            Self::ExclusiveMinimum { .. } => "exclusiveMinimum",
            Self::FalseSchema => "falseSchema",
            Self::MaxItems { .. } => "maxItems",
            Self::Maximum { .. } => "maximum",
            Self::MaxProperties { .. } => "maxProperties",
            Self::MinItems { .. } => "minItems",
            Self::Minimum { .. } => "minimum",
            Self::MinProperties { .. } => "minProperties",
            Self::MultipleOf { .. } => "multipleOf",
            Self::Required { .. } => "required",
            Self::Type { .. } => "type",
            Self::UniqueItems => "uniqueItems",
            Self::Other { keyword } => keyword,
        }
    }
}

/// A step of a location: to a member by its name, or to an item by its index.
#[derive(Clone, Debug, PartialEq, Eq, Hash)]
pub enum PathSegment {
    Property(String),
    Index(usize),
}

/// A location in an instance or a schema. It is displayed as a JSON pointer.
#[derive(Clone, Debug, Default, PartialEq, Eq, Hash)]
pub struct Location {
    segments: Vec<PathSegment>,
}

impl Location {
    /// Returns the steps from the root.
    pub fn segments(&self) -> &[PathSegment] {
        &self.segments
    }
}

impl fmt::Display for Location {
    fn fmt(&self, f: &mut fmt::Formatter<'_>) -> fmt::Result {
        self.segments.iter().try_for_each(|segment| match segment {
            PathSegment::Property(name) => write!(f, "/{}", name.replace('~', "~0").replace('/', "~1")),
            PathSegment::Index(index) => write!(f, "/{index}"),
        })
    }
}

/// An error of an instance, or of a schema as the instance of JSON Schema's rules for schemas. It is displayed as its
/// message, a text for people, which may change. Its locations and its value are made when they are asked for.
#[derive(Clone)]
pub struct ValidationError {
    kind: ValidationErrorKind,
    at: String,
    keyword_at: String,
    message: String,
    document: Arc<Document>,
}

impl ValidationError {
    /// Returns what failed.
    pub fn kind(&self) -> &ValidationErrorKind {
        &self.kind
    }

    /// Returns the location of the value at fault. (Of [`Error::Schema`]: in the schema, that of the keyword's value or
    /// of the subschema that is no schema. Of `required`, `type`, `enum` and `const` it may be an item of it, or a
    /// value in it, that is at fault.)
    pub fn instance_path(&self) -> Location {
        self.document.find(&self.at).0
    }

    /// Returns the location of the keyword in the schema. (Of [`Error::Schema`]: empty, since no meta-schema is read.)
    pub fn schema_path(&self) -> Location {
        keyword_location(&self.keyword_at)
    }

    /// Returns the JSON text of the value at [`ValidationError::instance_path`].
    pub fn instance(&self) -> &str {
        &self.document.text[self.document.find(&self.at).1]
    }
}

impl PartialEq for ValidationError {
    fn eq(&self, other: &Self) -> bool {
        let places = (&self.at, &self.keyword_at) == (&other.at, &other.keyword_at);
        places && self.kind == other.kind && self.message == other.message && self.instance() == other.instance()
    }
}

impl Eq for ValidationError {}

impl fmt::Debug for ValidationError {
    fn fmt(&self, f: &mut fmt::Formatter<'_>) -> fmt::Result {
        // not the instance, which may be long
        f.debug_struct("ValidationError")
            .field("kind", &self.kind)
            .field("instance_path", &self.at)
            .field("schema_path", &self.keyword_at)
            .field("message", &self.message)
            .finish_non_exhaustive()
    }
}

impl fmt::Display for ValidationError {
    fn fmt(&self, f: &mut fmt::Formatter<'_>) -> fmt::Result {
        f.write_str(&self.message)
    }
}

impl std::error::Error for ValidationError {}

/// Which text an error is about.
#[derive(Clone, Copy, Debug, PartialEq, Eq, Hash)]
pub enum Text {
    Schema,
    Instance,
}

/// A place in a text.
#[derive(Clone, Copy, Debug, PartialEq, Eq, Hash)]
pub struct Position {
    /// The offset in bytes, from 0 on.
    pub offset: usize,
    /// The line, from 1 on.
    pub line: usize,
    /// The column in characters, from 1 on.
    pub column: usize,
}

/// Why there is no verdict, or why `validate` found an instance invalid.
#[derive(Clone, Debug, PartialEq, Eq)]
#[non_exhaustive]
pub enum Error {
    /// The instance is invalid, and this is its first error. Only [`crate::Validator::validate`] returns it.
    Invalid(Box<ValidationError>),
    /// The schema does not compile.
    Schema(Box<ValidationError>),
    /// The schema has these members, which are not checked. Only [`crate::ValidationOptions::build`] of strict options
    /// returns it.
    Unchecked(Vec<UncheckedMember>),
    /// The text is not JSON in UTF-8, or is refused though JSON allows it. The reason says why; the kind says it in one
    /// of the words of `include/jskw.h`, such as `missingComma`. A schema with a number that is too large for a double
    /// has no kind and no position.
    NotJson { text: Text, kind: String, reason: String, position: Option<Position> },
    /// The instance has a number that is not exact, first at this location: it is no c / 10^k with c from -2^63 to
    /// 2^64-1 and k from 0 to 18, or from 1 to 18 if it is written with a point or an exponent.
    Inexact { location: Location, position: Position },
    /// Memory ran out.
    NoMemory,
    /// The library returned a status that this crate does not know.
    Status(u32),
}

impl fmt::Display for Error {
    fn fmt(&self, f: &mut fmt::Formatter<'_>) -> fmt::Result {
        match self {
            Error::Invalid(error) => write!(f, "{error} (instance {:?})", error.at),
            Error::Schema(error) => write!(f, "{error} (schema {:?})", error.at),
            Error::Unchecked(members) => {
                let shown: Vec<String> = members.iter().take(10).map(UncheckedMember::to_string).collect();
                let more = members.len() - shown.len();
                write!(f, "the schema has what is not checked: {}", shown.join(", "))?;
                if more == 0 {
                    return Ok(());
                }
                write!(f, " and {more} more")
            }
            Error::NotJson { text, reason, position, .. } => {
                let name = if *text == Text::Schema { "schema" } else { "instance" };
                let is = if reason.starts_with("not ") { "is " } else { "" };
                write!(f, "the {name} {is}{reason}")?;
                position.iter().try_for_each(|at| write!(f, " at line {}, column {}", at.line, at.column))
            }
            Error::Inexact { location, .. } => write!(f, "the number at {:?} is not exact", location.to_string()),
            Error::NoMemory => f.write_str("out of memory"),
            Error::Status(status) => write!(f, "the library returned the unknown status {status}"),
        }
    }
}

impl std::error::Error for Error {
    fn source(&self) -> Option<&(dyn std::error::Error + 'static)> {
        match self {
            Error::Invalid(error) | Error::Schema(error) => Some(&**error),
            _ => None,
        }
    }
}

/// What makes errors of lines: the instance, and the schema, which has the constants and options that are too long for a
/// line, each of which is made once.
#[derive(Debug)]
pub(crate) struct Maker {
    document: Arc<Document>,
    schema: Arc<Document>,
    long: BTreeMap<String, Arc<str>>,
}

impl Maker {
    pub(crate) fn new(instance: &[u8], schema: Arc<Document>) -> Maker {
        Maker { document: Arc::new(Document::new(instance)), schema, long: BTreeMap::new() }
    }

    /// Returns the text of the instance.
    pub(crate) fn instance(&self) -> &[u8] {
        self.document.text.as_bytes()
    }

    /// Returns the error of a line.
    pub(crate) fn error(&mut self, words: &[String]) -> ValidationError {
        let [keyword, at, keyword_at, message, expected] = first_words(words);
        let expected = match keyword {
            "const" | "enum" if expected.is_empty() => self.value_at(keyword_at),
            _ => expected.into(),
        };
        ValidationError {
            kind: kind(keyword, expected),
            at: at.into(),
            keyword_at: keyword_at.into(),
            message: message.into(),
            document: Arc::clone(&self.document),
        }
    }

    /// Returns the compact text of a value of the schema.
    fn value_at(&mut self, location: &str) -> Arc<str> {
        let schema = &self.schema;
        let made = || schema.value_at(location, |value| compact(&schema.text, value)).unwrap_or_default().into();
        Arc::clone(self.long.entry(location.into()).or_insert_with(made))
    }
}

/// Returns the first words of a line; later libraries may write more.
pub(crate) fn first_words<const COUNT: usize>(words: &[String]) -> [&str; COUNT] {
    let mut first = [""; COUNT];
    first.iter_mut().zip(words).for_each(|(to, word)| *to = word);
    first
}

/// Returns why there is no verdict.
pub(crate) fn refusal(text: Text, status: u32, told: &str, given: &[u8]) -> Error {
    let words = lines(told).next().unwrap_or_default();
    let word = |index: usize| words.get(index).map(String::as_str).unwrap_or_default();
    let number = |index: usize| word(index).parse().ok();
    let place = |at| Some(Position { offset: number(at)?, line: number(at + 1)?, column: number(at + 2)? });
    match (status, place(1)) {
        (BAD_SCHEMA, _) => {
            let [keyword, at, message, expected] = first_words(&words);
            let kind = kind(keyword, expected.into());
            let document = Arc::new(Document::new(given));
            let (at, message) = (at.into(), message.into());
            Error::Schema(Box::new(ValidationError { kind, at, keyword_at: String::new(), message, document }))
        }
        (NOT_JSON, _) => {
            let position = place(0);
            let too_large = "has a number that is too large for a double, which JSON allows and jskw does not";
            let reason = if position.is_some() { word(4) } else { too_large };
            Error::NotJson { text, kind: word(3).into(), reason: reason.into(), position }
        }
        (INEXACT, Some(position)) => Error::Inexact { location: Document::new(given).find(word(0)).0, position },
        (NO_MEMORY, _) => Error::NoMemory,
        _ => Error::Status(status),
    }
}

/// A JSON text. Its value is read once, when it is first asked for.
#[derive(Debug)]
pub(crate) struct Document {
    pub(crate) text: String,
    root: Mutex<Option<Arc<Value>>>,
}

impl Document {
    pub(crate) fn new(text: &[u8]) -> Document {
        Document { text: String::from_utf8_lossy(text).into_owned(), root: Mutex::new(None) }
    }

    fn root(&self) -> Option<Arc<Value>> {
        let mut root = self.root.lock().unwrap_or_else(PoisonError::into_inner);
        if root.is_none() {
            *root = read(&self.text).map(Arc::new);
        }
        root.clone()
    }

    /// Returns the steps of a JSON pointer, and the place of the value there.
    pub(crate) fn find(&self, pointer: &str) -> (Location, Range<usize>) {
        let mut segments = Vec::new();
        let range = self.walk(pointer, |segment| segments.push(segment), |value| value.range.clone());
        (Location { segments }, range.unwrap_or(0..0))
    }

    /// Returns what is made of the value at a JSON pointer.
    fn value_at<R>(&self, pointer: &str, make: impl FnOnce(&Value) -> R) -> Option<R> {
        self.walk(pointer, |_| (), make)
    }

    fn walk<R>(&self, pointer: &str, mut step: impl FnMut(PathSegment), make: impl FnOnce(&Value) -> R) -> Option<R> {
        let root = self.root();
        let mut value = root.as_deref();
        for word in pointer.split('/').skip(1) {
            let name = unescaped(word);
            value = match value.map(|value| &value.kind) {
                Some(Kind::Array(items)) => {
                    let index = name.parse().unwrap_or(usize::MAX);
                    step(PathSegment::Index(index));
                    items.get(index)
                }
                Some(Kind::Object(members)) => {
                    let member = members.get(&name);
                    step(PathSegment::Property(name));
                    member
                }
                _ => {
                    step(PathSegment::Property(name));
                    None
                }
            };
        }
        value.map(make)
    }
}

/// Returns the location of a keyword. Digits are an index, since no keyword's name is made of them.
fn keyword_location(pointer: &str) -> Location {
    let segment = |word: &str| match word.parse() {
        Ok(index) => PathSegment::Index(index),
        Err(_) => PathSegment::Property(unescaped(word)),
    };
    Location { segments: pointer.split('/').skip(1).map(segment).collect() }
}

fn unescaped(word: &str) -> String {
    word.replace("~1", "/").replace("~0", "~")
}

/// Returns the kind of an error by its keyword and the JSON text of the expected value.
fn kind(keyword: &str, expected: Arc<str>) -> ValidationErrorKind {
    use ValidationErrorKind as Kinds;
    let other = || Kinds::Other { keyword: keyword.to_string() };
    let size = |kind: fn(u64) -> Kinds| expected.parse().map_or_else(|_| other(), kind);
    let limit = |kind: fn(i128) -> Kinds| expected.parse().map_or_else(|_| other(), kind);
    match keyword {
        "additionalItems" => size(|limit| Kinds::AdditionalItems { limit }),
        "compileError" => Kinds::CompileError,
        "const" => Kinds::Constant { expected_value: expected },
        "contains" => Kinds::Contains,
        "enum" => Kinds::Enum { options: expected },
        "exclusiveMaximum" => limit(|limit| Kinds::ExclusiveMaximum { limit }),
        "exclusiveMinimum" => limit(|limit| Kinds::ExclusiveMinimum { limit }),
        "falseSchema" => Kinds::FalseSchema,
        "maxItems" => size(|limit| Kinds::MaxItems { limit }),
        "maximum" => limit(|limit| Kinds::Maximum { limit }),
        "maxProperties" => size(|limit| Kinds::MaxProperties { limit }),
        "minItems" => size(|limit| Kinds::MinItems { limit }),
        "minimum" => limit(|limit| Kinds::Minimum { limit }),
        "minProperties" => size(|limit| Kinds::MinProperties { limit }),
        "multipleOf" => size(|multiple_of| Kinds::MultipleOf { multiple_of }),
        "required" => match read(&expected).map(|value| value.kind) {
            Some(Kind::String(property)) => Kinds::Required { property },
            _ => other(),
        },
        "type" => types(&expected).map_or_else(other, |types| Kinds::Type { types }),
        "uniqueItems" => Kinds::UniqueItems,
        _ => other(),
    }
}

/// Returns the types of the JSON text of a name, or of an array of names.
fn types(text: &str) -> Option<Vec<JsonType>> {
    let name = |value: Value| match value.kind {
        Kind::String(name) => type_named(&name),
        _ => None,
    };
    let value = read(text)?;
    match value.kind {
        Kind::Array(items) => items.into_iter().map(name).collect(),
        _ => name(value).map(|name| vec![name]),
    }
}

fn type_named(name: &str) -> Option<JsonType> {
    Some(match name {
        "array" => JsonType::Array,
        "boolean" => JsonType::Boolean,
        "integer" => JsonType::Integer,
        "null" => JsonType::Null,
        "number" => JsonType::Number,
        "object" => JsonType::Object,
        "string" => JsonType::String,
        _ => return None,
    })
}
