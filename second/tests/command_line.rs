//! The command line: what goes to standard output, to standard error, and the exit status.

use std::io::Write;
use std::process::{Command, Output, Stdio};

/// Runs the program with these arguments and this standard input.
fn second(arguments: &[&str], input: &[u8]) -> Output {
    let mut child = Command::new(env!("CARGO_BIN_EXE_second"))
        .args(arguments)
        .stdin(Stdio::piped())
        .stdout(Stdio::piped())
        .stderr(Stdio::piped())
        .spawn()
        .expect("the program starts");
    child.stdin.take().expect("its input is a pipe").write_all(input).expect("it reads its input");
    child.wait_with_output().expect("the program ends")
}

fn text(bytes: &[u8]) -> &str {
    std::str::from_utf8(bytes).expect("what it prints is text")
}

#[test]
fn day_prints_the_sample() {
    let output = second(&["day"], include_bytes!("sample.day"));
    assert_eq!(output.status.code(), Some(0));
    assert_eq!(text(&output.stdout), include_str!("sample.out"));
    assert!(output.stderr.is_empty());
}

#[test]
fn run_prints_outcomes_and_counts_apart() {
    let script = b"sizes 1 1 2\nstore 0*9\nempty\nopen 1 0\nopen 1 0\n";
    let plain = second(&["run"], script);
    let counted = second(&["run", "--counts"], script);
    assert_eq!(plain.status.code(), Some(0));
    assert_eq!(plain.stdout, counted.stdout);
    assert!(plain.stderr.is_empty());
    let refusals: Vec<&str> = text(&plain.stdout).lines().map(|line| &line[..8]).collect();
    assert_eq!(refusals, ["empty 0 ", "open 0 0", "open 6 0"]);
    let counts = text(&counted.stderr);
    for line in ["empty 0: 1\n", "open 0: 1\n", "open 6: 1\n", "open 8: 0\n"] {
        assert!(counts.contains(line), "{} is missing in {}", line, counts);
    }
}

#[test]
fn a_wrong_line_ends_with_status_2() {
    let output = second(&["run"], b"empty\nlink 1 2 3\n");
    assert_eq!(output.status.code(), Some(2));
    assert!(text(&output.stdout).starts_with("empty 1 0 "));
    assert!(text(&output.stderr).contains("script line 2: `link` takes 4 numbers, not 3"));
}

#[test]
fn wrong_arguments_end_with_status_2() {
    for arguments in [&["walk"][..], &[], &["make", "reads", "1"], &["make", "all", "x", "1"]] {
        let output = second(arguments, b"");
        assert_eq!(output.status.code(), Some(2), "{:?}", arguments);
        assert!(output.stdout.is_empty() && !output.stderr.is_empty());
    }
}

#[test]
fn a_made_script_can_be_run() {
    let script = second(&["make", "all", "1", "200"], b"");
    assert_eq!(script.status.code(), Some(0));
    let output = second(&["run"], &script.stdout);
    assert_eq!(output.status.code(), Some(0));
    assert_eq!(text(&output.stdout).lines().count(), 200);
}

#[test]
fn days_are_written_to_a_folder() {
    let folder = std::env::temp_dir().join(format!("second-days-{}", std::process::id()));
    let name = folder.to_str().expect("a folder with a name");
    let output = second(&["days", "1", "12", name], b"");
    assert_eq!(output.status.code(), Some(0), "{}", text(&output.stderr));
    let lengths: Vec<usize> = (0..12)
        .map(|index| std::fs::read(folder.join(format!("{}.day", index))).expect("a day").len())
        .collect();
    std::fs::remove_dir_all(&folder).expect("the folder can be taken away");
    assert!(lengths.contains(&0) && lengths.contains(&12_000), "{:?}", lengths);
    assert!(lengths.iter().any(|&length| length > 12_000), "{:?}", lengths);
}
