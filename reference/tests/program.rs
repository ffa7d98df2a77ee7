//! The binary as others run it: its arguments, its streams, its exit codes.

use std::io::{Read, Write};
use std::process::{Command, Output, Stdio};

fn command(arguments: &[&str]) -> Command {
    let mut command = Command::new(env!("CARGO_BIN_EXE_reference"));
    command
        .args(arguments)
        .stdin(Stdio::piped())
        .stdout(Stdio::piped())
        .stderr(Stdio::piped());
    command
}

/// Feeds the program while its output is read, so that neither waits forever.
fn run(arguments: &[&str], input: &[u8]) -> Output {
    let mut child = command(arguments).spawn().unwrap();
    let mut stdin = child.stdin.take().unwrap();
    std::thread::scope(|scope| {
        scope.spawn(move || {
            // A program that stops early does not read its input.
            let _ = stdin.write_all(input);
        });
        child.wait_with_output().unwrap()
    })
}

fn output(arguments: &[&str], input: &[u8]) -> Vec<u8> {
    let output = run(arguments, input);
    assert!(output.status.success());
    output.stdout
}

#[test]
fn keep_answers_a_log() {
    let answer = output(&["keep"], b"1000 tick A1.nx\n\n5 []");
    assert_eq!(answer, b"1000 refused 20\nbad\n5 refused 6\n");
    assert_eq!(output(&["keep"], b""), b"");
}

#[test]
fn probe_answers_a_script() {
    let answer = output(
        &["probe"],
        b"read 5b30315d\nblank 1 176\nwhat\ntick 1 41\ntext 2 5c2f\nceiling 1\nread 5b30315d",
    );
    assert_eq!(
        answer,
        b"no 4 2 0\nok\n?\nno 9 0 0\nok 1 2f5a\nok\nno 11 1 0\n"
    );
    assert_eq!(output(&["probe"], b""), b"");
}

#[test]
fn json_answers_texts() {
    let answer = output(&["json"], b"2 5b30315d\n1 5b30315d\n0 \nwhat\n0 -\n1 5b5d");
    assert_eq!(answer, b"no 4 2\nno 11 1\nno 4 0\n?\nno 4 0\nok 1\n");
    assert_eq!(output(&["json"], b""), b"");
}

#[test]
fn rules_answers_questions() {
    let answer = output(&["rules"], b"call-id 4131\ncall-id 412e\nwhat\nphrase 00c8");
    assert_eq!(answer, b"yes\nno\n?\n200 OK\n");
    assert_eq!(output(&["rules"], b""), b"");
}

/// A program's answers to 400 lines of a kind that is made for it.
fn answers_to_made(kind: &str, program: &str) -> Vec<u8> {
    // A ceiling stands before each text on a line of its own.
    let count = if kind == "ceilings" { "200" } else { "400" };
    let cases = output(&["gen", kind, "4", count], b"");
    assert_eq!(cases, output(&["gen", kind, "4", count], b""));
    assert_eq!(cases.iter().filter(|byte| **byte == b'\n').count(), 400);
    let answers = output(&[program], &cases);
    assert_eq!(answers.iter().filter(|byte| **byte == b'\n').count(), 400);
    answers
}

#[test]
fn gen_feeds_the_smaller_programs() {
    for kind in ["json", "rules"] {
        answers_to_made(kind, kind);
    }
}

#[test]
fn gen_feeds_the_programs_and_count_counts() {
    for (kind, program) in [
        ("keep", "keep"),
        ("probe", "probe"),
        ("photos", "probe"),
        ("utf8", "probe"),
        ("ceilings", "probe"),
        ("letters", "probe"),
        ("particulars", "probe"),
    ] {
        let answers = answers_to_made(kind, program);
        let counts = String::from_utf8(output(&["count"], &answers)).unwrap();
        let numbers = counts.lines().map(|line| line.split_whitespace().next());
        let total: u64 = numbers
            .map(|word| word.unwrap().parse::<u64>().unwrap())
            .sum();
        assert_eq!(total, 400);
    }
}

#[test]
fn wrong_arguments_give_usage_and_2() {
    for arguments in [
        &[][..],
        &["keeps"],
        &["keep", "x"],
        &["json", "x"],
        &["rule"],
        &["photos"],
        &["ceilings"],
        &["letters"],
        &["gen"],
        &["gen", "keep", "1"],
        &["gen", "keep", "x", "1"],
        &["gen", "keep", "1", "-1"],
        &["gen", "log", "1", "1"],
    ] {
        let output = run(arguments, b"");
        assert_eq!(output.status.code(), Some(2), "{arguments:?}");
        assert!(output.stdout.is_empty());
        assert!(output.stderr.starts_with(b"usage:"));
    }
}

#[test]
fn a_closed_output_ends_the_program_quietly() {
    let mut child = command(&["gen", "keep", "1", "1000000"]).spawn().unwrap();
    let mut stdout = child.stdout.take().unwrap();
    let mut first = [0; 10];
    stdout.read_exact(&mut first).unwrap();
    drop(stdout);
    let output = child.wait_with_output().unwrap();
    assert_eq!(output.status.code(), Some(0));
    assert!(output.stderr.is_empty());
}
