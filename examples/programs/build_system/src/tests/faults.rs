//! Makefiles that are refused, each with its line.

use super::{pair, read};
use crate::fault::{Fault, NameProblem, Part, Problem};
use crate::graph::{Graph, GraphError};
use crate::lines::text_of;
use crate::makefile::Makefile;
use crate::variables::Variables;

/// The fault of a makefile, which its first goal brings to light at the latest.
fn fault_of(text: &str) -> Option<Fault> {
    let makefile = match read(text) {
        Ok(makefile) => makefile,
        Err(fault) => return Some(fault),
    };
    let goals = [makefile.default_goal.clone()?];
    match Graph::of(&makefile, &goals) {
        Err(GraphError::Fault(fault)) => Some(fault),
        _ => None,
    }
}

#[track_caller]
fn refuses(text: &str, line: usize, problem: impl Into<Problem>) {
    assert_eq!(fault_of(text), Some(problem.into().at(line)), "{text:?}");
}

#[track_caller]
fn refuses_name(text: &str, line: usize, name: &str, why: NameProblem) {
    let name = name.to_string();
    refuses(text, line, Problem::Name { name, why });
}

#[test]
fn bytes_that_are_no_text() {
    assert_eq!(text_of(b"a: b\nc: \xff\n"), Err(Problem::NotUtf8.at(2)));
    assert_eq!(text_of(b"a: b\n\n\n\0"), Err(Problem::Nul.at(4)));
}

#[test]
fn lines_that_do_not_end_well() {
    refuses("a: b\nA = c \\", 2, Problem::OpenContinuation);
    refuses("a: b\n\techo \\\n", 2, Problem::OpenContinuation);
    refuses("A = b\\\\\nall: c\n", 1, Problem::BackslashRun);
}

#[test]
fn lines_that_are_neither_rules_nor_variables() {
    refuses("a: b\nwhat\n", 2, Problem::NoSeparator);
    refuses("a: b\n        echo eight blanks\n", 2, Problem::NoSeparator);
    refuses("$(A:b=c)\n", 1, Problem::NoSeparator);
    refuses("\techo a\n", 1, Problem::RecipeWithoutRule);
    refuses("a: b\nA = 1\n\techo a\n", 3, Problem::RecipeWithoutRule);
    refuses(" : b\n", 1, Problem::NoTarget);
    refuses("E =\n$(E): b\n", 2, Problem::NoTarget);
}

#[test]
fn directives() {
    for word in [
        "include", "-include", "ifeq", "ifdef", "else", "endif", "define", "export", "override", "vpath",
    ] {
        refuses(&format!("a: b\n{word} (x,y)\n"), 2, Part::Directive(word.to_string()));
    }
}

#[test]
fn other_assignments() {
    for operator in [":=", "::=", ":::=", "?=", "+=", "!="] {
        refuses(&format!("\nA {operator} b\n"), 2, Problem::Assignment(operator));
        refuses(&format!("A{operator}b\n"), 1, Problem::Assignment(operator));
    }
    refuses("a: b\na: A = c\n", 2, Part::TargetVariable);
    refuses("A b = c\n", 1, Problem::VariableName("A b".to_string()));
    refuses(" = c\n", 1, Problem::VariableName(String::new()));
    for name in ["SHELL", "MAKEFLAGS", ".DEFAULT_GOAL", "VPATH"] {
        refuses(&format!("{name} = c\n"), 1, Part::SpecialVariable(name.to_string()));
    }
}

#[test]
fn other_rules() {
    refuses("a:: b\n", 1, Part::DoubleColon);
    refuses("a: b: c\n", 1, Part::SecondColon);
    refuses("a: b ; echo\n", 1, Problem::CommandOnRuleLine);
    refuses("a;b: c\n", 1, Problem::CommandOnRuleLine);
    refuses("a: b | c\n", 1, Part::OrderOnly);
    refuses_name("%.o: %.c\n", 1, "%.o", NameProblem::Pattern);
    refuses_name("a: *.c\n", 1, "*.c", NameProblem::Wildcard);
    refuses_name("a: ~/b\n", 1, "~/b", NameProblem::Home);
    refuses_name("a: b\\ c\n", 1, "b\\", NameProblem::Backslash);
    refuses_name("a: lib(b.o)\n", 1, "lib(b.o)", NameProblem::Archive);
    refuses_name("a b &: c\n", 1, "&", NameProblem::Grouped);
    refuses_name("A = b:c\na: $(A)\n", 2, "b:c", NameProblem::Separator);
    refuses_name(".c.o:\n\tcc\n", 1, ".c.o", NameProblem::Dotted);
    refuses_name(".SUFFIXES:\n", 1, ".SUFFIXES", NameProblem::Dotted);
}

#[test]
fn phony_that_is_no_list() {
    refuses(".PHONY a: b\n", 1, Problem::PhonyMixed);
    refuses(".PHONY: b\n\techo b\n", 2, Problem::PhonyMixed);
}

#[test]
fn two_recipes_of_one_target() {
    let target = "a".to_string();
    refuses("a: b\n\tone\n\na: c\n\ttwo\n", 4, Problem::SecondRecipe { target, first: 1 });
}

#[test]
fn other_references() {
    for reference in ["$(shell ls)", "$(A:b=c)", "$($(A))", "$(@D)", "$()", "$(wildcard *.c)"] {
        let told = reference.replace("))", ")");
        refuses(&format!("a:\n\techo {reference}\n"), 2, Problem::Reference(told));
    }
    for letter in ['A', '?', '*', '+', '%', ' ', 'é'] {
        refuses(&format!("A = ${letter}\na: b\n"), 1, Problem::ShortReference(letter));
    }
    refuses("a:\n\techo $(A\n", 2, Problem::OpenReference);
    refuses("a:\n\techo $\n", 2, Problem::LoneDollar);
    refuses("A = $@\na: $(A)\n", 2, Problem::AutomaticOutside);
    refuses("a: b\n\t+echo\n", 2, Part::PlusPrefix);
}

#[test]
fn variables_without_a_value() {
    refuses("a: $(B)\nB = c\n", 1, Problem::NoValue("B".to_string()));
    refuses("A = $(B)\n\na:\n\techo\n\techo $(A)\n", 5, Problem::NoValue("B".to_string()));
    refuses("a:\n\t$(MAKE) x\n", 2, Problem::NoValue("MAKE".to_string()));
}

#[test]
fn variables_that_refer_to_each_other() {
    refuses("A = $(B)\nB = x$(A)\na: $(A)\n", 3, Problem::Recursive("A".to_string()));
    let chain: String = (0..2_000).map(|place| format!("V{place} = $(V{})\n", place + 1)).collect();
    refuses(&format!("{chain}a: $(V0)\n"), 2_001, Problem::TooDeep);
}

#[test]
fn variables_that_grow_without_bound() {
    let doubled: String = (1..60).map(|place| format!("V{place} = $(V{0})$(V{0})\n", place - 1)).collect();
    for first in ["x", ""] {
        refuses(&format!("V0 = {first}\n{doubled}a: $(V59)\n"), 61, Problem::TooLong);
    }
}

#[test]
fn a_variable_of_the_command_line_that_refers_to_none() {
    let variables = Variables::new([], [pair("A", "$(B)")]);
    let makefile = Makefile::read("a:\n\techo\n", variables).unwrap_or_else(|fault| panic!("{fault:?}"));
    let fault = Fault {
        line: None,
        problem: Problem::NoValue("B".to_string()),
    };
    assert_eq!(makefile.variables.exported(), Err(fault));
}

#[test]
fn commands_of_what_no_goal_needs_may_lack_values() {
    assert_eq!(fault_of("a:\n\techo\nb:\n\techo $(B)\n"), None);
}
