//! Values of serde_json and of a type of one's own, beside their texts.
use jskw_serde_json::{compile, validator, CheckValues, Error};
use serde_json::{json, Value};

#[test]
fn values_are_checked_as_their_texts() {
    let refused = validator(&json!({"items": {"minimum": 0.5}}));
    assert!(matches!(refused, Err(Error::Jskw(jskw::Error::Schema(_)))));
    let checked = validator(&json!({"items": {"minimum": 0}, "uniqueItems": true})).expect("a schema");
    for value in [json!([]), json!([1, 0.5]), json!([1, 1]), json!([-1, 2]), json!({"a": null}), json!([0.1, 1e2])] {
        let text = value.to_string();
        assert_eq!(checked.is_valid_value(&value).ok(), checked.is_valid(&text).ok());
        let (ours, theirs) =
            (checked.iter_value_errors(&value).expect("exact"), checked.iter_errors(&text).expect("exact"));
        assert_eq!(
            ours.map(|one| one.to_string()).collect::<Vec<_>>(),
            theirs.map(|one| one.to_string()).collect::<Vec<_>>()
        );
        assert_eq!(checked.validate_value(&value).is_ok(), checked.validate(&text).is_ok());
        let (ours, theirs) = (checked.evaluate_value(&value).expect("exact"), checked.evaluate(&text).expect("exact"));
        assert_eq!(format!("{ours:?}"), format!("{theirs:?}"));
    }
    assert!(matches!(checked.is_valid_value(&json!([1e300])), Err(Error::Jskw(jskw::Error::Inexact { .. }))));
}

#[test]
fn types_of_ones_own() {
    let pairs =
        validator(&json!({"prefixItems": [{"type": "string"}, {"type": "integer"}], "minItems": 2})).expect("a schema");
    assert!(pairs.is_valid_value(&("a", 1)).expect("exact"));
    assert!(!pairs.is_valid_value(&(1, "a")).expect("exact"));
    let (name, number): (String, i64) = pairs.read(r#"["a", 1]"#).expect("valid");
    assert_eq!((name.as_str(), number), ("a", 1));
    assert!(matches!(pairs.read::<(String, i64)>(r#"[1, "a"]"#), Err(Error::Jskw(jskw::Error::Invalid(_)))));
    assert!(matches!(pairs.read::<Vec<u8>>(r#"["a", 1]"#), Err(Error::Serde(_))));
    assert!(matches!(pairs.read::<Value>("["), Err(Error::Jskw(jskw::Error::NotJson { .. }))));
    let draft4 = jskw::Validator::options().with_draft(jskw::Draft::Draft4);
    let integer = compile(&draft4, &json!({"type": "integer"})).expect("a schema");
    assert!(!integer.is_valid_value(&1.0).expect("exact"));
}
