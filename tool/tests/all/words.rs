//! Command lines: help, options, and lines that are none.
use crate::common::{run, run_on, sample};

const COMMANDS: [&str; 11] =
    ["assess", "explain", "check", "desk", "faces", "text", "sheet", "draw", "book", "completion", "manual"];

#[test]
fn every_command_has_help_with_an_example() {
    let overview = run(&["--help"]).said(0);
    assert_eq!(overview, run(&["-h"]).said(0));
    for command in COMMANDS {
        assert!(overview.contains(&format!("\n  nibgravel {command} ")), "{command}");
        let help = run(&[command, "--help"]).said(0);
        assert_eq!(help, run(&[command, "-h"]).said(0));
        assert!(help.contains(&format!("Example:\n  $ nibgravel {command}")) && help.contains("--json"), "{command}");
        assert!(help.lines().all(|line| line.len() <= 120), "{command}");
        assert_eq!(run(&[command, "--version"]).said(0), "nibgravel 0.1.0\n");
    }
    assert_eq!(run(&["--version"]).said(0), "nibgravel 0.1.0\n");
}

/// The examples that print something print that.
#[test]
fn examples_are_true() {
    for command in ["assess", "explain", "check", "desk"] {
        let help = run(&[command, "--help"]).said(0);
        let (_, example) = help.split_once("Example:\n  $ nibgravel ").expect("an example");
        let (words, prints) = example.split_once('\n').expect("what it prints");
        let ran = run(&words.split(' ').collect::<Vec<_>>());
        let printed: String =
            ran.text().lines().map(|line| format!("  {line}").trim_end().to_string() + "\n").collect();
        assert_eq!(printed, prints, "{command}");
    }
}

#[test]
fn options_may_stand_anywhere_and_be_joined() {
    let expected = run(&["assess", "--limit", "3", "samples/octahedron.sheet"]).said(1);
    assert!(expected.contains("19 TooLong, work 3"));
    assert_eq!(run(&["assess", "samples/octahedron.sheet", "--limit=3"]).said(1), expected);
    assert_eq!(run(&["assess", "--limit", "9", "--limit", "3", "--", "samples/octahedron.sheet"]).said(1), expected);
    assert_eq!(run(&["text", "samples/box.sheet", "-o/dev/null"]).said(0), "");
    assert_eq!(run(&["text", "samples/box.sheet", "--output=/dev/null"]).said(0), "");
    let dashed = run(&["assess", "--", "--limit"]);
    assert_eq!(dashed.failed(2), "nibgravel: --limit: there is no such file");
}

#[test]
fn a_line_that_is_none_is_told_in_one_line() {
    let told = |words: &[&str]| run(words).failed(2).to_string();
    assert_eq!(told(&[]), "nibgravel: a command is missing; see nibgravel --help");
    assert_eq!(told(&["asess"]), "nibgravel: no command asess; see nibgravel --help");
    assert_eq!(told(&["assess"]), "nibgravel: assess: FILE is missing; see nibgravel assess --help");
    assert_eq!(told(&["check", "a"]), "nibgravel: check: LIST is missing; see nibgravel check --help");
    assert_eq!(told(&["desk", "a", "b"]), "nibgravel: desk: no word b here; see nibgravel desk --help");
    assert_eq!(told(&["desk", "--limit", "3", "a"]), "nibgravel: desk: no option --limit; see nibgravel desk --help");
    assert_eq!(
        told(&["assess", "a", "--limit"]),
        "nibgravel: assess: N is missing behind --limit; see nibgravel assess --help"
    );
    assert!(told(&["assess", "--json=1", "a"]).starts_with("nibgravel: assess: --json takes no value"));
    assert!(told(&["check", "-", "-"]).starts_with("nibgravel: check: standard input can be read once only"));
    assert!(
        told(&["sheet", "a", "--json"]).starts_with("nibgravel: sheet: with --json the sheet needs a file, behind -o")
    );
    for limit in ["", "-1", "+1", "1.5", "1e3", "18446744073709551616", "many"] {
        assert!(told(&["assess", "a", "--limit", limit]).contains("--limit takes a whole number"), "{limit}");
    }
}

#[test]
fn the_highest_limit_is_answered_by_the_proved_program() {
    let most = u64::MAX.to_string();
    let said = run_on(&["assess", "-", "--limit", &most], &sample("box.sheet")).said(1);
    assert!(said.starts_with("-: not assessed 2 BadLimit: "));
}
