//! Graphs of what goals need.

use super::{names, read_well};
use crate::graph::{Graph, GraphError};

fn graph(text: &str, goals: &[&str]) -> Result<Graph, GraphError> {
    Graph::of(&read_well(text), &names(goals))
}

fn graph_well(text: &str, goals: &[&str]) -> Graph {
    graph(text, goals).unwrap_or_else(|error| panic!("{error:?}"))
}

#[test]
fn each_object_is_there_once_behind_its_prerequisites() {
    let graph = graph_well("all: a b\na: c d\nb: d c d\nc: e\nunused: x\n", &["all", "b"]);
    let order: Vec<_> = graph.objects.iter().map(|object| object.name.as_str()).collect();
    assert_eq!(order, ["e", "c", "d", "a", "b", "all"]);
    assert_eq!(graph.goals, [5, 4]);
    for (place, object) in graph.objects.iter().enumerate() {
        assert!(object.prerequisites.iter().all(|needed| *needed < place));
    }
    assert_eq!(graph.objects[4].prerequisites, [2, 1]);
    assert_eq!(graph.edges(), 7);
}

#[test]
fn an_object_knows_what_it_is_and_what_needs_it() {
    let graph = graph_well(".PHONY: all p\nall: a p\na: c\n", &["all"]);
    let told: Vec<_> = graph
        .objects
        .iter()
        .map(|object| (object.name.as_str(), object.is_phony, object.is_target, object.needed_by.as_deref()))
        .collect();
    let wanted = [
        ("c", false, false, Some("a")),
        ("a", false, true, Some("all")),
        ("p", true, false, Some("all")),
        ("all", true, true, None),
    ];
    assert_eq!(told, wanted);
}

#[test]
fn cycles_are_named() {
    let cycle = |text, goal: &str| match graph(text, &[goal]) {
        Err(GraphError::Cycle(names)) => names.join(" "),
        other => panic!("{other:?}"),
    };
    assert_eq!(cycle("a: a\n", "a"), "a");
    assert_eq!(cycle("all: x a\na: b\nb: c\nc: a\n", "all"), "a b c");
    assert_eq!(GraphError::Cycle(names(&["a", "b"])).to_string(), "circular dependency: a <- b <- a");
}

#[test]
fn a_cycle_that_no_goal_needs_does_not_matter() {
    assert_eq!(graph_well("a: b\nc: d\nd: c\n", &["a"]).objects.len(), 2);
}

#[test]
fn a_chain_of_100_000_objects() {
    let text: String = (0..100_000).map(|place| format!("n{place}: n{}\n", place + 1)).collect();
    assert_eq!(graph_well(&text, &["n0"]).objects.len(), 100_001);
}
