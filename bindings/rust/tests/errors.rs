//! Errors and evaluation trees as data.
use jskw::{
    Annotation, Draft, Error, JsonType, PathSegment, Position, Text, UncheckedMember, UncheckedReason,
    ValidationError, ValidationErrorKind, Validator,
};
use std::num::NonZeroU64;
use std::sync::Arc;
use ValidationErrorKind as Kind;

fn only_error(draft: Draft, schema: &str, instance: &str) -> ValidationError {
    let validator = Validator::options().with_draft(draft).build(schema).expect("a schema");
    let mut errors = validator.iter_errors(instance).expect("an instance");
    let first = errors.next().expect("an error");
    assert_eq!(errors.next(), None, "{schema} {instance}");
    first
}

#[test]
fn kinds() {
    let text = str::to_string;
    let rows = [
        (r#"{"type":"array"}"#, "1", Kind::Type { types: vec![JsonType::Array] }),
        (
            r#"{"type":["string","boolean","number","object","null"]}"#,
            "[]",
            Kind::Type {
                types: vec![JsonType::Boolean, JsonType::Null, JsonType::Number, JsonType::Object, JsonType::String],
            },
        ),
        (r#"{"type":"integer"}"#, "0.5", Kind::Type { types: vec![JsonType::Integer] }),
        (
            r#"{"const":{"b":[1,"x\t"],"a":0}}"#,
            "1",
            Kind::Constant { expected_value: Arc::from(r#"{"a":0,"b":[1,"x\t"]}"#) },
        ),
        (r#"{"enum":[1,"b"]}"#, "2", Kind::Enum { options: Arc::from(r#"[1,"b"]"#) }),
        (r#"{"minimum":3}"#, "2.99", Kind::Minimum { limit: 3 }),
        (r#"{"maximum":-9223372036854775808}"#, "0", Kind::Maximum { limit: i64::MIN.into() }),
        (r#"{"exclusiveMinimum":18446744073709551615}"#, "0", Kind::ExclusiveMinimum { limit: u64::MAX.into() }),
        (r#"{"exclusiveMaximum":2}"#, "2.0", Kind::ExclusiveMaximum { limit: 2 }),
        (r#"{"multipleOf":2}"#, "3", Kind::MultipleOf { multiple_of: 2 }),
        (r#"{"minItems":2}"#, "[1]", Kind::MinItems { limit: 2 }),
        (r#"{"maxItems":0}"#, "[1]", Kind::MaxItems { limit: 0 }),
        (r#"{"minProperties":2}"#, "{}", Kind::MinProperties { limit: 2 }),
        (r#"{"maxProperties":0}"#, r#"{"a":1}"#, Kind::MaxProperties { limit: 0 }),
        (r#"{"required":["a\t\"\u00e9\ud83d\ude00\\"]}"#, "{}", Kind::Required { property: text("a\t\"é😀\\") }),
        (r#"{"uniqueItems":true}"#, "[1,1.0]", Kind::UniqueItems),
        (r#"{"contains":false}"#, "[1]", Kind::Contains),
        ("false", "1", Kind::FalseSchema),
    ];
    for (schema, instance, kind) in rows {
        assert_eq!(*only_error(Draft::Draft202012, schema, instance).kind(), kind);
    }
    let beyond = only_error(Draft::Draft7, r#"{"items":[true],"additionalItems":false}"#, "[1,2]");
    assert_eq!(*beyond.kind(), Kind::AdditionalItems { limit: 1 });
}

#[test]
fn places() {
    let schema = r#"{"items":{"prefixItems":[true,{"type":"null"}]}}"#;
    let error = only_error(Draft::Draft202012, schema, " [ [], [ {\"]\" : 1} , [ 5 , \"a\\\"]\" ] ] ] ");
    assert_eq!(error.instance_path().segments(), [PathSegment::Index(1), PathSegment::Index(1)]);
    assert_eq!((error.instance_path().to_string(), error.instance()), ("/1/1".into(), r#"[ 5 , "a\"]" ]"#));
    let steps = ["items", "prefixItems", "", "type"].map(|name| PathSegment::Property(name.into()));
    let mut wanted = steps.to_vec();
    wanted[2] = PathSegment::Index(1);
    assert_eq!(error.schema_path().segments(), wanted);
    assert!(format!("{error:?}").contains("kind: Type { types: [Null] }"));
    let float = Validator::new("true").and_then(|all| all.is_valid(r#"{"0":{"a\tb\\n/~":[1, 1e-19]}}"#));
    match float {
        Err(Error::Inexact { location, position }) => {
            assert_eq!(position, Position { offset: 22, line: 1, column: 23 });
            assert_eq!(location.segments()[0], PathSegment::Property("0".into()));
            assert_eq!(location.segments()[2], PathSegment::Index(1));
            assert_eq!(location.to_string(), "/0/a\tb\\n~1~0/1");
        }
        other => panic!("{other:?}"),
    }
    let named = Validator::new("true").and_then(|all| all.is_valid("{\"a\\r\":1e19999}"));
    assert!(matches!(named, Err(Error::Inexact { location, .. }) if location.to_string() == "/a\r"));
}

#[test]
fn pages() {
    let none = Validator::new(r#"{"items":false}"#).expect("a schema");
    for count in [1, 63, 64, 65, 300, 1023, 1024, 1025, 20_000] {
        let list = format!("[{}0]", "0,".repeat(count - 1));
        let wanted = |count: usize| (0..count).map(|index| format!("/{index}")).collect::<Vec<_>>();
        let errors = none.iter_errors(&list).expect("an instance");
        assert_eq!(errors.map(|error| error.instance_path().to_string()).collect::<Vec<_>>(), wanted(count));
        for limit in [1, 63, 64, 65, 1000, 1024, 30_000, u64::MAX] {
            let limit = NonZeroU64::new(limit).expect("not 0");
            let mut errors = none.iter_first_errors(&list, limit).expect("an instance");
            let found: Vec<_> = errors.by_ref().map(|error| error.instance_path().to_string()).collect();
            assert_eq!(found, wanted(count.min(limit.get() as usize)));
            assert!(errors.next().is_none());
        }
    }
    let errors = Validator::new(r#"{"items":false}"#).and_then(|other| other.iter_errors("[1,2]"));
    assert_eq!(errors.expect("its own validator").count(), 2);
}

#[test]
fn long_values() {
    // the text of the constant has so many bytes
    for size in [1023, 1024, 1025, 5000] {
        let long = "x".repeat(size - 2);
        let error = only_error(Draft::Draft202012, &format!(r#"{{"items":{{"const" : "{long}"}}}}"#), "[1]");
        assert_eq!(*error.kind(), Kind::Constant { expected_value: format!("\"{long}\"").into() });
    }
    let long = "y".repeat(2000);
    let schema = format!(r#"{{"items":{{"enum" : [ {{"b":1 , "a\u0001\n\/":[true,-5]}}, null, "{long}" ]}}}}"#);
    let options = format!(r#"[{{"a\u0001\n/":[true,-5],"b":1}},null,"{long}"]"#);
    let errors: Vec<_> = Validator::new(schema).and_then(|all| all.iter_errors("[1,2]")).expect("JSON").collect();
    assert_eq!(errors.len(), 2);
    for error in errors {
        assert_eq!(*error.kind(), Kind::Enum { options: options.as_str().into() });
    }
}

#[test]
fn refusals() {
    let all = Validator::new("true").expect("a schema");
    let position = Some(Position { offset: 6, line: 2, column: 3 });
    let reason = "not JSON: a word that is not true, false or null".to_string();
    let not_json = |text| Error::NotJson { text, kind: "word".into(), reason: reason.clone(), position };
    assert_eq!(all.is_valid("[1,\n  ?]"), Err(not_json(Text::Instance)));
    assert_eq!(all.validate("[1,\n  ?]"), Err(not_json(Text::Instance)));
    assert_eq!(Validator::new("[1,\n  ?]").err(), Some(not_json(Text::Schema)));
    let too_large = Validator::new(r#"{"minimum":1e999}"#).err();
    assert!(matches!(too_large, Some(Error::NotJson { text: Text::Schema, position: None, .. })));
    match Validator::new(r#"{"items":{"minItems":-1}}"#).unwrap_err() {
        Error::Schema(error) => {
            assert_eq!(*error.kind(), Kind::Minimum { limit: 0 });
            assert_eq!((error.instance_path().to_string(), error.instance()), ("/items/minItems".into(), "-1"));
        }
        other => panic!("{other:?}"),
    }
    match Validator::new(r#"{"type":"foo"}"#).unwrap_err() {
        Error::Schema(error) => assert_eq!((error.kind().keyword(), error.instance()), ("compileError", "\"foo\"")),
        other => panic!("{other:?}"),
    }
    match Validator::new(r#"{"required":["a",1]}"#).unwrap_err() {
        Error::Schema(error) => {
            assert_eq!((error.instance_path().to_string(), error.instance()), ("/required".into(), r#"["a",1]"#));
        }
        other => panic!("{other:?}"),
    }
    let error: Box<dyn std::error::Error + Send + Sync> = Box::new(all.is_valid("").unwrap_err());
    assert_eq!(error.to_string(), "the instance is not JSON: the text ends too early at line 1, column 1");
}

#[test]
fn reasons() {
    let all = Validator::new("true").expect("a schema");
    let arrays = |depth| format!("{}{}", "[".repeat(depth), "]".repeat(depth));
    assert_eq!(all.is_valid(arrays(127)), Ok(true));
    let members = format!("\n{}[]{}", r#"{"[\"{":"#.repeat(127), "}".repeat(127));
    let deep = "nests more than 127 levels, which JSON allows and jskw does not";
    let lone = "has the escape of a lone surrogate, which JSON allows and jskw does not";
    let rows = [
        (arrays(128), deep, "line 1, column 128"),
        (members, deep, "line 2, column 1017"),
        (r#"["\ud800"]"#.into(), lone, "line 1, column 2"),
        ("[\"ok\",\n \"\\uDC00x\"]".into(), lone, "line 2, column 2"),
        (r#"{"\ud83d\ude00\n":"\ud800\u0061"}"#.into(), lone, "line 1, column 19"),
        (r#"{"\ud83d\ud83d\ude00":1}"#.into(), lone, "line 1, column 2"),
        (r#"["\ud83d\ude00\x"]"#.into(), "is not JSON: an escape that JSON does not have", "line 1, column 2"),
        (r#"["\ud800"#.into(), "is not JSON: a string without its closing quote", "line 1, column 2"),
        (r#"["\ud8"]"#.into(), "is not JSON: an escape that JSON does not have", "line 1, column 2"),
        (format!("\"{}", "[".repeat(200)), "is not JSON: a string without its closing quote", "line 1, column 1"),
        (format!("{}x", "[".repeat(127)), "is not JSON: a word that is not true, false or null", "line 1, column 128"),
    ];
    for (text, reason, place) in rows {
        let error = all.is_valid(&text).unwrap_err();
        assert_eq!(error.to_string(), format!("the instance {reason} at {place}"), "{text}");
        let error = Validator::new(&text).unwrap_err();
        assert_eq!(error.to_string(), format!("the schema {reason} at {place}"), "{text}");
    }
    let error = Validator::new(r#"{"minimum":1e999}"#).unwrap_err();
    let reason = "has a number that is too large for a double, which JSON allows and jskw does not";
    assert_eq!(error.to_string(), format!("the schema {reason}"));
    let not_utf8 = all.is_valid(b"\"\xff\"").unwrap_err();
    assert_eq!(not_utf8.to_string(), "the instance is not JSON: the bytes are not UTF-8 at line 1, column 2");
    for text in ["[1e18, 2e18]", "[1, 5000000000000000000.0]"] {
        assert!(matches!(all.is_valid(text), Err(Error::Inexact { location: at, .. }) if at.to_string() == "/1"));
    }
}

#[test]
fn unchecked() {
    let schema = r#"{"items":[{"a\t\n\\/~":1}],"minimun":1,"0":2,"title":"t"}"#;
    let strict = Validator::options().with_draft(Draft::Draft7).with_strict(true);
    let error = strict.build(schema).unwrap_err();
    let shown = "/0 (unknown), /items/0/a\t\n\\~1~0 (unknown), /minimun (unknown)";
    assert_eq!(error.to_string(), format!("the schema has what is not checked: {shown}"));
    let members = match error {
        Error::Unchecked(members) => members,
        other => panic!("{other:?}"),
    };
    assert_eq!(members.iter().map(UncheckedMember::keyword).collect::<Vec<_>>(), ["0", "a\t\n\\/~", "minimun"]);
    assert_eq!(members[0].location().segments(), [PathSegment::Property("0".into())]);
    assert_eq!(members[1].location().segments()[1], PathSegment::Index(0));
    assert_eq!(strict.clone().with_strict(false).build(schema).and_then(|all| all.unchecked()), Ok(members));
    let many: Vec<String> = (0..100).map(|number| format!("\"x{number:02}\":1")).collect();
    let error = strict.build(format!("{{{}}}", many.join(","))).unwrap_err();
    assert!(error.to_string().ends_with("/x08 (unknown), /x09 (unknown) and 90 more"));
    let overridden = Validator::options().with_overridden(["type"]).unchecked(r#"{"type":1,"not":{}}"#);
    let reasons: Vec<_> = overridden.expect("JSON").iter().map(|member| member.reason().clone()).collect();
    assert_eq!(reasons, [UncheckedReason::NotImplemented, UncheckedReason::Inactive]);
    let repeats = r#"{"items":[{"minItems":1,"a":2,"min\u0049tems":3}],"items":[{"type":5,"type":"null"}]}"#;
    match strict.build(repeats).unwrap_err() {
        Error::Unchecked(members) => {
            let told: Vec<_> = members.iter().map(|one| (one.location().to_string(), one.reason().as_str())).collect();
            assert_eq!(told, [("/items/0/type".to_string(), "repeated"), ("/items".to_string(), "repeated")]);
        }
        other => panic!("{other:?}"),
    }
    let place = Some(Position { offset: 6, line: 2, column: 3 });
    let told = strict.unchecked("[1,\n  ?]");
    assert!(matches!(told, Err(Error::NotJson { text: Text::Schema, position, .. }) if position == place));
    assert!(matches!(strict.build(r#"{"a":1,"type":5}"#), Err(Error::Schema(_))));
}

#[test]
fn trees() -> Result<(), Error> {
    let validator =
        Validator::new(r#"{"contains":{"minimum":10},"minContains":1,"maxContains":2,"items":{"type":"number"}}"#)?;
    let tree = validator.evaluate("[5, 10, 25.5]")?;
    assert_eq!((tree.valid, tree.schema_location.as_str(), tree.children.len()), (true, "", 2));
    let annotations: Vec<_> = tree.children.iter().map(|child| child.annotation.clone()).collect();
    assert_eq!(annotations, [Some(Annotation::Bool(true)), Some(Annotation::Indices(vec![1, 2]))]);
    let matching = &tree.children[1].children[0];
    assert_eq!((matching.instance_location.as_str(), matching.schema_location.as_str()), ("/1", "/contains"));
    let tree = Validator::new(r#"{"prefixItems":[true,{"type":"null"}],"required":["a"]}"#)?.evaluate("[1,2,3]")?;
    assert_eq!((tree.valid, &tree.children[0].annotation), (false, &Some(Annotation::Index(1))));
    let deep = format!("{}1{}", "[".repeat(120), "]".repeat(120));
    let schema = format!("{}{{\"type\":\"null\"}}{}", "{\"items\":".repeat(120), "}".repeat(120));
    let tree = Validator::new(schema)?.evaluate(deep)?;
    let mut node = &tree;
    while let Some(below) = node.children.first() {
        node = below;
    }
    assert_eq!((node.valid, node.errors.clone()), (false, vec!["type".to_string()]));
    Ok(())
}

#[test]
fn own_words() {
    let validator =
        Validator::options().with_overridden(["type", "a\"\\\n"]).build(r#"{"type":"null"}"#).expect("a schema");
    assert_eq!(validator.is_valid("1"), Ok(true));
    assert_eq!(format!("{validator:?}"), r#"Validator { draft: Draft202012, schema: "{\"type\":\"null\"}", .. }"#);
    assert!(jskw::version().library.starts_with("0.3."));
}
