//! Makefiles of the subset.

use super::{names, pair, read_well};
use crate::graph::Graph;
use crate::lines::{lines_of, text_of, Kind};
use crate::makefile::Makefile;
use crate::recipe::Command;
use crate::variables::Variables;

/// The prerequisites of a target.
fn needs(makefile: &Makefile, target: &str) -> Vec<String> {
    makefile.rules[target].prerequisites.clone()
}

/// The commands of a target as the shell has them.
fn commands(makefile: &Makefile, target: &str) -> Vec<Command> {
    let graph = Graph::of(makefile, &names(&[target])).unwrap_or_else(|error| panic!("{error:?}"));
    graph.objects[graph.goals[0]].commands.clone().unwrap_or_default()
}

fn texts(makefile: &Makefile, target: &str) -> Vec<String> {
    commands(makefile, target).into_iter().map(|command| command.text).collect()
}

#[test]
fn a_rule_with_targets_prerequisites_and_commands() {
    let makefile = read_well("a b : c  d\n\tone\n\n# between\n\ttwo\ne: f\n");
    assert_eq!(needs(&makefile, "a"), names(&["c", "d"]));
    assert_eq!(needs(&makefile, "b"), names(&["c", "d"]));
    assert_eq!(texts(&makefile, "b"), names(&["one", "two"]));
    assert_eq!(needs(&makefile, "e"), names(&["f"]));
    assert!(makefile.rules["e"].recipe.is_none());
    assert_eq!(makefile.default_goal.as_deref(), Some("a"));
}

#[test]
fn automatic_variables() {
    let makefile = read_well("dir/a.o: a.c a.h a.c\n\t$@ $< $^ $(@) ${<} $$^ $$$$\n");
    assert_eq!(texts(&makefile, "dir/a.o"), names(&["dir/a.o a.c a.c a.h dir/a.o a.c $^ $$"]));
    let makefile = read_well("a:\n\techo [$<] [$^]\n");
    assert_eq!(texts(&makefile, "a"), names(&["echo [] []"]));
}

#[test]
fn variables_have_their_last_value_in_commands_and_their_first_in_rules() {
    let makefile = read_well("N = one\n$(N): ${N}.c\n\techo $(N) $(M)\nN = two\nM = $(N)!\n");
    assert_eq!(needs(&makefile, "one"), names(&["one.c"]));
    assert_eq!(texts(&makefile, "one"), names(&["echo two two!"]));
}

#[test]
fn a_value_keeps_its_blanks_but_those_before_it() {
    let makefile = read_well("A =   x  y \t# comment\nB=z\na:\n\t[$(A)] [$(B)]\n");
    assert_eq!(texts(&makefile, "a"), names(&["[x  y \t] [z]"]));
}

#[test]
fn the_command_line_overrides_the_makefile_which_overrides_the_environment() {
    let environment = [pair("A", "1"), pair("B", "1"), pair("C", "1"), pair("SHELL", "1")];
    let variables = Variables::new(environment, [pair("A", "3")]);
    let text = "A = 2\nB = 2\nD = 2\na:\n\t$(A)$(B)$(C)\n";
    let makefile = Makefile::read(text, variables).unwrap_or_else(|fault| panic!("{fault:?}"));
    assert_eq!(texts(&makefile, "a"), names(&["321"]));
    assert_eq!(makefile.variables.exported(), Ok(vec![pair("A", "3"), pair("B", "2")]));
    assert!(makefile.variables.get("SHELL").is_err());
}

#[test]
fn marks_before_a_command() {
    let makefile = read_well("Q = @\na:\n\t@one\n\t-two\n\t- @ three -x @y\n\t$(Q)four\n\t@\n\t\n");
    let marks: Vec<_> = commands(&makefile, "a")
        .into_iter()
        .map(|command| (command.line, command.text, command.is_silent, command.ignores_failure))
        .collect();
    let wanted = [
        (3, "one", true, false),
        (4, "two", false, true),
        (5, "three -x @y", true, true),
        (6, "four", true, false),
    ];
    assert_eq!(marks, wanted.map(|(line, text, silent, ignores)| (line, text.to_string(), silent, ignores)));
}

#[test]
fn continued_lines() {
    let makefile = read_well("A = x  \\\n\t  y\\\n\nall: a \\\n  b\nc:\n\tone \\\n\t  two\\\n three\n\tfour\n");
    assert_eq!(needs(&makefile, "all"), names(&["a", "b"]));
    assert_eq!(texts(&makefile, "c"), names(&["one \\\n  two\\\n three", "four"]));
    let makefile = read_well("A = x  \\\n\t  y\\\n\nc:\n\t[$(A)]\n");
    assert_eq!(texts(&makefile, "c"), names(&["[x y ]"]));
}

#[test]
fn comments() {
    let makefile = read_well("# one \\\n goes on: here\na: b # c\n\techo # d\nA = x\\#y # z\n\\\n# e\nf: $(A)\n");
    assert_eq!(needs(&makefile, "a"), names(&["b"]));
    assert_eq!(texts(&makefile, "a"), names(&["echo # d"]));
    assert_eq!(needs(&makefile, "f"), names(&["x#y"]));
    assert_eq!(makefile.rules.len(), 2);
}

#[test]
fn a_line_without_an_end_and_lines_that_end_in_carriage_returns() {
    assert_eq!(texts(&read_well("a:\n\techo x"), "a"), names(&["echo x"]));
    assert_eq!(texts(&read_well("a: b\r\n\techo x\r\n"), "a"), names(&["echo x"]));
    assert_eq!(needs(&read_well("a: b\r\n\techo x\r\n"), "a"), names(&["b"]));
}

#[test]
fn an_empty_makefile_has_no_goal() {
    for text in ["", "\n\n", "# comment", "\t\n\t# comment\n", "A = b\n", ".PHONY: a\n"] {
        assert_eq!(read_well(text).default_goal, None, "{text:?}");
    }
}

#[test]
fn phony_targets() {
    let makefile = read_well(".PHONY: all clean\nall: a\n.PHONY: x\n");
    assert_eq!(makefile.default_goal.as_deref(), Some("all"));
    assert!(["all", "clean", "x"].iter().all(|name| makefile.phony.contains(*name)));
    assert!(!makefile.rules.contains_key(".PHONY"));
}

#[test]
fn rules_for_one_target_are_joined() {
    let makefile = read_well("a: x y\na: b c\n\t$< $^\na: d\n");
    assert_eq!(needs(&makefile, "a"), names(&["b", "c", "x", "y", "d"]));
    assert_eq!(texts(&makefile, "a"), names(&["b b c x y d"]));
}

#[test]
fn a_leading_dot_and_slash_is_dropped() {
    let makefile = read_well("./a: .//./b ../c ./ ./.d\n");
    assert_eq!(needs(&makefile, "a"), names(&["b", "../c", "./", ".d"]));
}

#[test]
fn a_tab_alone_is_a_recipe_that_does_nothing() {
    let makefile = read_well("a:\n\t\nb: a\n");
    assert!(makefile.rules["a"].recipe.is_some());
    assert!(commands(&makefile, "a").is_empty());
}

#[test]
fn a_mark_of_the_byte_order_is_dropped() {
    assert_eq!(text_of(b"\xef\xbb\xbfa: b\n"), Ok("a: b\n"));
}

#[test]
fn lines_are_numbered_by_their_first_physical_line() {
    let lines = lines_of("a\\\nb\n\tc\\\nd\ne\n").unwrap_or_else(|fault| panic!("{fault:?}"));
    let numbers: Vec<_> = lines.iter().map(|line| (line.number, line.kind)).collect();
    assert_eq!(numbers, [(1, Kind::Other), (3, Kind::Recipe), (5, Kind::Other)]);
}

#[test]
fn a_line_of_a_megabyte() {
    let many: Vec<_> = (0..150_000).map(|number| format!("p{number}")).collect();
    let makefile = read_well(&format!("A = {}\nall: $(A)\n\t$(A)\n", many.join(" ")));
    assert_eq!(needs(&makefile, "all"), many);
    assert_eq!(texts(&makefile, "all"), [many.join(" ")]);
}
