//! Command lines.

use super::{names, pair};
use crate::arguments::{ArgumentError, Arguments};
use std::ffi::OsString;
use std::os::unix::ffi::OsStringExt;

fn read(line: &str) -> Result<Arguments, ArgumentError> {
    Arguments::read(line.split_whitespace().map(OsString::from))
}

#[test]
fn options_goals_and_variables() {
    let arguments = read("-j4 one -f other.mk A=b=c ./two -nk -- -three B=");
    assert_eq!(
        arguments,
        Ok(Arguments {
            file: Some("other.mk".to_string()),
            jobs: 4,
            is_dry_run: true,
            wants_help: false,
            variables: vec![pair("A", "b=c"), pair("B", "")],
            goals: names(&["one", "two", "-three"]),
        })
    );
    assert_eq!(read("-nj 3").map(|arguments| arguments.jobs), Ok(3));
    assert_eq!(read("").map(|arguments| arguments.jobs), Ok(1));
    assert_eq!(read("-f -").map(|arguments| arguments.file), Ok(Some("-".to_string())));
}

#[test]
fn words_that_are_refused() {
    assert_eq!(read("-x"), Err(ArgumentError::UnknownOption("-x".to_string())));
    assert_eq!(read("--jobs=4"), Err(ArgumentError::UnknownOption("--jobs=4".to_string())));
    assert_eq!(read("-nx"), Err(ArgumentError::UnknownOption("-nx".to_string())));
    assert_eq!(read("-f"), Err(ArgumentError::NoValue('f')));
    assert_eq!(read("a -j"), Err(ArgumentError::NoValue('j')));
    assert_eq!(read("-f a -f b"), Err(ArgumentError::SecondFile));
    for jobs in ["0", "-1", "x", "4x", "1.5", "99999999999999999999"] {
        assert_eq!(read(&format!("-j {jobs}")), Err(ArgumentError::Jobs(jobs.to_string())));
    }
    for word in ["=b", "A:=b", "SHELL=b", "A=$(shell"] {
        assert_eq!(read(word), Err(ArgumentError::Variable(word.to_string())));
    }
}

#[test]
fn words_that_are_no_names() {
    assert_eq!(Arguments::read([OsString::new()]), Err(ArgumentError::EmptyGoal));
    let word = OsString::from_vec(vec![b'a', 255]);
    assert_eq!(Arguments::read([word.clone()]), Err(ArgumentError::NotUtf8(word)));
}
