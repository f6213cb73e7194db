//! Evaluation trees.

use crate::json::{read, Kind, Value};
use std::collections::BTreeMap;

/// What a schema or a keyword reports of a value.
#[derive(Clone, Debug, PartialEq, Eq)]
pub struct EvaluationNode {
    /// Whether it accepts the value.
    pub valid: bool,
    /// The location of the schema or the keyword, as a JSON pointer.
    pub schema_location: String,
    /// The location of the value, as a JSON pointer.
    pub instance_location: String,
    /// The annotation. Nodes of `items` and `prefixItems` keep it if they are invalid, those of `contains` do not.
    pub annotation: Option<Annotation>,
    /// The keywords of its own errors.
    pub errors: Vec<String>,
    /// The nodes below: of a schema those of its keywords, of a keyword those of the schemas that it applied.
    pub children: Vec<EvaluationNode>,
}

/// An annotation of a keyword.
#[derive(Clone, Debug, PartialEq, Eq)]
pub enum Annotation {
    /// Of `items`: whether it was applied to any item. Of `prefixItems`: true, if every item has a schema.
    Bool(bool),
    /// Of `prefixItems`: the largest index that has a schema.
    Index(usize),
    /// Of `contains`: the indices of the items that match.
    Indices(Vec<usize>),
}

/// Returns the tree that the library has written.
pub(crate) fn tree(text: &str) -> Option<EvaluationNode> {
    node(text, read(text)?)
}

fn node(text: &str, value: Value) -> Option<EvaluationNode> {
    let mut members = match value.kind {
        Kind::Object(members) => members,
        _ => return None,
    };
    Some(EvaluationNode {
        valid: matches!(members.get("valid")?.kind, Kind::Bool(true)),
        schema_location: string(members.remove("keywordLocation")?)?,
        instance_location: string(members.remove("instanceLocation")?)?,
        annotation: annotation(text, members.get("annotation")?)?,
        errors: list(&mut members, "errors")?.into_iter().map(string).collect::<Option<_>>()?,
        children: list(&mut members, "details")?.into_iter().map(|below| node(text, below)).collect::<Option<_>>()?,
    })
}

fn list(members: &mut BTreeMap<String, Value>, name: &str) -> Option<Vec<Value>> {
    match members.remove(name)?.kind {
        Kind::Array(items) => Some(items),
        _ => None,
    }
}

fn string(value: Value) -> Option<String> {
    match value.kind {
        Kind::String(string) => Some(string),
        _ => None,
    }
}

/// Returns an annotation, or `None` for `null`; nothing if the value is neither.
fn annotation(text: &str, value: &Value) -> Option<Option<Annotation>> {
    let index = |value: &Value| text[value.range.clone()].parse().ok();
    Some(match &value.kind {
        Kind::Null => None,
        Kind::Bool(is_true) => Some(Annotation::Bool(*is_true)),
        Kind::Array(items) => Some(Annotation::Indices(items.iter().map(index).collect::<Option<_>>()?)),
        _ => Some(Annotation::Index(index(value)?)),
    })
}
