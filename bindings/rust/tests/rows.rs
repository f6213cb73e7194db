//! The rows of bindings/rows.txt.
use jskw::{Draft, Error, UncheckedMember, ValidationError, ValidationOptions, Validator, Vocabulary};
use std::num::NonZeroU64;

const FIRST: NonZeroU64 = match NonZeroU64::new(1) {
    Some(one) => one,
    None => panic!(),
};

// Returns the settings of a row; none if they cannot be written.
fn options(part: &[&str]) -> Option<ValidationOptions> {
    let draft = match part[0] {
        "4" => Draft::Draft4,
        "6" => Draft::Draft6,
        "7" => Draft::Draft7,
        "2019" => Draft::Draft201909,
        "2020" => Draft::Draft202012,
        _ => return None,
    };
    let set: u32 = part[1].parse().ok().filter(|set| *set < 8)?;
    let all = [Vocabulary::Core, Vocabulary::Applicator, Vocabulary::Validation];
    let vocabularies = all.into_iter().filter(|vocabulary| set & *vocabulary as u32 != 0);
    let names = part[2].strip_prefix('[')?.trim_matches(|c| c == '"' || c == ']');
    let overridden = names.split("\",\"").filter(|name| !name.is_empty());
    Some(Validator::options().with_draft(draft).with_vocabularies(vocabularies).with_overridden(overridden))
}

// Returns what is not checked of the schema of a row, if the validator and the strict options tell the same.
fn unchecked(options: &ValidationOptions, part: &[&str]) -> String {
    let members = options.unchecked(part[3]).expect("JSON");
    match options.build(part[3]) {
        Ok(validator) => assert_eq!(validator.unchecked().as_ref(), Ok(&members)),
        Err(_) => assert_eq!(part[5], "bad schema"),
    }
    match options.clone().with_strict(true).build(part[3]) {
        Ok(_) => assert!(members.is_empty()),
        Err(Error::Unchecked(others)) => assert_eq!(others, members),
        Err(_) => assert_eq!(part[5], "bad schema"),
    }
    let line = |member: &UncheckedMember| format!("{}|{}", member.location(), member.reason().as_str());
    members.iter().map(line).collect::<Vec<_>>().join(" ")
}

fn told(errors: &[ValidationError]) -> String {
    let line = |error: &ValidationError| {
        format!("{}|{}|{}", error.kind().keyword(), error.instance_path(), error.schema_path())
    };
    errors.iter().map(line).collect::<Vec<_>>().join(" ")
}

// Returns the result of a row, and what it tells, if all calls agree.
fn answers(validator: &Validator, instance: &[u8]) -> Result<(&'static str, String), Error> {
    let errors: Vec<ValidationError> = validator.iter_errors(instance)?.collect();
    let valid = validator.is_valid(instance)?;
    assert_eq!(valid, errors.is_empty());
    assert_eq!(valid, validator.evaluate(instance)?.valid);
    let first = errors.first().cloned();
    assert_eq!(validator.iter_first_errors(instance, FIRST)?.next(), first);
    assert_eq!(validator.validate(instance).err(), first.map(|error| Error::Invalid(Box::new(error))));
    Ok((if valid { "valid" } else { "invalid" }, told(&errors)))
}

fn result(part: &[&str]) -> (&'static str, String) {
    let outcome = match options(part) {
        Some(options) => options.build(part[3]).and_then(|validator| answers(&validator, part[4].as_bytes())),
        None => return ("bad setting", String::new()),
    };
    match outcome {
        Ok(found) => found,
        Err(Error::NotJson { .. }) => ("not JSON", String::new()),
        Err(Error::Inexact { location, .. }) => ("inexact", location.to_string()),
        Err(Error::Schema(error)) => ("bad schema", format!("{}|{}", error.kind().keyword(), error.instance_path())),
        Err(error) => panic!("{error}"),
    }
}

#[test]
fn rows() {
    let path = concat!(env!("CARGO_MANIFEST_DIR"), "/../rows.txt");
    let text = std::fs::read_to_string(path).expect("rows.txt");
    let rows = text.lines().filter(|line| !line.starts_with('#'));
    let mut count = 0;
    for line in rows {
        let part: Vec<&str> = line.split('\t').collect();
        assert_eq!(result(&part), (part[5], part[6].to_string()), "{line}");
        if ["valid", "invalid", "bad schema"].contains(&part[5]) {
            let options = options(&part).expect("settings");
            assert_eq!(unchecked(&options, &part), *part.get(7).unwrap_or(&""), "{line}");
        }
        count += 1;
    }
    assert!(count >= 40);
}
