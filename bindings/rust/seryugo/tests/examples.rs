//! Each example's report is the one beside it, and odd texts end as they should.

use seryugo::{replay, BadLimit, End, MOST_ENTRIES};
use std::fs;
use std::path::{Path, PathBuf};

fn examples() -> Vec<PathBuf> {
    let folder = Path::new(env!("CARGO_MANIFEST_DIR")).join("../../../examples/scripts");
    let mut scripts: Vec<PathBuf> = fs::read_dir(folder)
        .unwrap()
        .map(|entry| entry.unwrap().path())
        .filter(|path| path.extension().is_some_and(|extension| extension == "cml"))
        .collect();
    scripts.sort();
    scripts
}

#[test]
fn examples_have_their_reports() {
    let mut compared = 0;
    for path in examples() {
        let replayed = replay(&fs::read(&path).unwrap(), 65_536).unwrap();
        if matches!(replayed.end, End::Fault(_)) {
            // One with a lane or a feed is for threads.
            assert_eq!(replayed.report, "", "{}", path.display());
        } else {
            let report = fs::read_to_string(path.with_extension("report")).unwrap();
            assert_eq!(replayed.report, report, "{}", path.display());
            compared += 1;
        }
    }
    assert!(compared > 5, "only {compared} were compared");
}

#[test]
fn faults_are_told_by_their_line() {
    let end = |script: &str| replay(script.as_bytes(), 10).unwrap().end;
    assert_eq!(end(""), End::Fault(1));
    assert_eq!(end("cml 1\nthread A\nA jump m\n"), End::Fault(3));
    assert_eq!(end("cml 1\nmailbox m\nthread A\nA recv m\n"), End::Stalled);
    assert_eq!(end("cml 2\nmailbox m\nthread A\nA send m hello\n"), End::Done);
}

#[test]
fn limits_are_from_one_to_the_most() {
    let script = b"cml 1\nmailbox m\nmailbox n\n";
    assert_eq!(replay(script, 0), Err(BadLimit));
    assert_eq!(replay(script, MOST_ENTRIES + 1), Err(BadLimit));
    assert_eq!(replay(script, 1).unwrap().end, End::Full);
    assert_eq!(replay(script, MOST_ENTRIES).unwrap().end, End::Done);
}

#[test]
fn a_report_may_be_longer_than_its_script() {
    let script = b"cml 1\nchannel c\nthread A\nA port c p\n";
    let replayed = replay(script, 10).unwrap();
    assert!(replayed.report.len() > 2 * script.len());
    assert!(replayed.report.ends_with("end: done 1\n"));
}
