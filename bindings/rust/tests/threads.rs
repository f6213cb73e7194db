//! One validator in many threads.
use jskw::{Error, Validator};
use std::sync::atomic::{AtomicUsize, Ordering};
use std::thread::{scope, spawn};

fn is_one<T: Send + Sync + Clone + std::fmt::Debug + 'static>() {}

#[test]
fn serves_threads() {
    is_one::<Validator>();
    is_one::<Error>();
    let validator = Validator::new(r#"{"items":{"type":"integer"},"uniqueItems":true}"#).expect("a schema");
    let right = AtomicUsize::new(0);
    scope(|scope| {
        // more threads than there are kept handles
        for _ in 0..40 {
            scope.spawn(|| {
                for _ in 0..200 {
                    assert_eq!(validator.is_valid("[1,2,3]"), Ok(true));
                    assert_eq!(validator.is_valid("[1,2,1]"), Ok(false));
                    assert_eq!(validator.iter_errors(r#"[1,"a",1]"#).map(Iterator::count), Ok(2));
                    right.fetch_add(1, Ordering::Relaxed);
                }
            });
        }
    });
    assert_eq!(right.into_inner(), 8000);
}

#[test]
fn clones_outlive_the_original() {
    let validator = Validator::new(r#"{"type":"null"}"#).expect("a schema");
    let threads: Vec<_> = (0..8)
        .map(|_| {
            let clone = validator.clone();
            spawn(move || (clone.is_valid("null"), clone.is_valid("1")))
        })
        .collect();
    drop(validator);
    for thread in threads {
        assert_eq!(thread.join().expect("no panic"), (Ok(true), Ok(false)));
    }
}
