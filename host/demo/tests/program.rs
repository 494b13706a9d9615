//! The program prints the expected sheet, byte for byte, and exactly nine elements are dark on it.
use std::process::Command;

const EXPECTED: &str = include_str!("../expected.txt");

/// The program, under the runner that Cargo has for it: on another processor that is an emulator.
fn program() -> Command {
    let program = env!("CARGO_BIN_EXE_demo");
    let runner = std::env::var("CARGO_TARGET_X86_64_UNKNOWN_LINUX_GNU_RUNNER").unwrap_or_default();
    let mut words = runner.split_whitespace().chain([program]);
    let mut command = Command::new(words.next().unwrap_or(program));
    command.args(words);
    command
}

#[test]
fn the_program_prints_the_expected_sheet() {
    let output = program().output().expect("the program runs");
    assert!(output.status.success(), "{output:?}");
    assert_eq!(String::from_utf8(output.stdout).as_deref(), Ok(EXPECTED));
}

#[test]
fn exactly_nine_are_dark() {
    let dark = EXPECTED.lines().filter(|line| line.ends_with("  dark"));
    let elements: Vec<&str> = dark
        .filter_map(|line| line.split_whitespace().next())
        .collect();
    assert_eq!(elements.len(), 9);
    let last = EXPECTED.lines().last();
    assert_eq!(last, Some(&*format!("dark: {}", elements.join(" "))));
}
