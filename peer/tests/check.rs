//! The comparison as it is run: its verdict is its last line, and what few days don't meet is told and doesn't fail it.

use std::process::{Command, Output};

const HANDS: &str = env!("CARGO_BIN_EXE_hands");
const MESSAGES: &str = env!("CARGO_BIN_EXE_messages");
const IBANS: &str = env!("CARGO_BIN_EXE_ibans");

fn check(words: &[&str]) -> Output {
    Command::new(env!("CARGO_BIN_EXE_check")).args(words).output().expect("the comparison runs")
}

/// The exit status, how many things were never met, and the last line.
fn verdict(words: &[&str]) -> (Option<i32>, usize, String) {
    let output = check(words);
    let text = String::from_utf8(output.stdout).expect("it prints UTF-8");
    let never = text.lines().filter(|line| line.starts_with("never met: ")).count();
    (output.status.code(), never, text.lines().last().unwrap_or_default().to_string())
}

/// The peer's own program, so that nothing differs.
#[test]
fn few_tickets_need_not_meet_it_all() {
    let (status, never, line) = verdict(&["--hands", HANDS, "--inputs", "50"]);
    assert!(never > 10);
    let due =
        format!("tickets one by one, all the same; {never} things never met, listed above, as fewer than 20000 tickets may");
    assert!(line.starts_with("peer: ") && line.ends_with(&due), "{line}");
    assert_eq!(status, Some(0));
}

#[test]
fn enough_tickets_meet_it_all() {
    let (status, never, line) = verdict(&["--hands", HANDS]);
    assert!(line.starts_with("peer: ") && line.ends_with(" tickets one by one, all the same; everything met"), "{line}");
    assert_eq!((status, never), (Some(0), 0));
}

#[test]
fn few_messages_need_not_meet_it_all() {
    let (status, never, line) = verdict(&["--messages-program", MESSAGES, "--messages", "50"]);
    let due =
        format!("peer: 50 messages, all the same; {never} things never met, listed above, as fewer than 20000 messages may");
    assert_eq!((status, line), (Some(0), due));
}

#[test]
fn enough_messages_meet_it_all() {
    let (status, never, line) = verdict(&["--messages-program", MESSAGES]);
    assert_eq!((status, never, line.as_str()), (Some(0), 0, "peer: 20000 messages, all the same; everything met"));
}

#[test]
fn messages_are_written_as_the_program_reads_them() {
    let file = std::env::temp_dir().join(format!("peer-messages-{}", std::process::id()));
    let name = file.to_str().expect("the file's name is UTF-8");
    assert_eq!(check(&["--write-messages", name, "--messages", "3"]).status.code(), Some(0));
    let input = std::fs::File::open(&file).expect("the file was written");
    let output = Command::new(MESSAGES).stdin(input).output().expect("the program runs");
    let text = String::from_utf8(output.stdout).expect("it prints UTF-8");
    let names: Vec<&str> = text.lines().filter(|line| line.starts_with('#')).collect();
    assert_eq!((names, text.lines().count()), (vec!["# 0", "# 1", "# 2"], 6));
    std::fs::remove_file(file).expect("the file was written");
}

#[test]
fn few_texts_for_the_iban_check_need_not_meet_it_all() {
    let (status, never, line) = verdict(&["--cases", IBANS, "--ibans", "50"]);
    assert!(never > 10);
    let due = format!(
        "peer: 50 texts for the IBAN check, all the same; {never} things never met, listed above, as fewer than 20000 texts may"
    );
    assert_eq!((status, line), (Some(0), due));
}

#[test]
fn enough_texts_for_the_iban_check_meet_it_all() {
    let (status, never, line) = verdict(&["--cases", IBANS]);
    let due = "peer: 20000 texts for the IBAN check, all the same; everything met";
    assert_eq!((status, never, line.as_str()), (Some(0), 0, due));
}

#[test]
fn a_program_that_differs_fails() {
    let folder = std::env::temp_dir().join(format!("peer-check-{}", std::process::id()));
    let out = folder.to_str().expect("the folder's name is UTF-8");
    let (status, _, line) = verdict(&["/bin/true", "--days", "1", "--out", out]);
    assert_eq!((status, line.as_str()), (Some(1), "peer: FAILED: a day differs"));
    let (status, _, line) = verdict(&["--hands", "/bin/true", "--inputs", "1", "--out", out]);
    assert_eq!((status, line.as_str()), (Some(1), "peer: FAILED: a case differs"));
    let (status, _, line) = verdict(&["--messages-program", "/bin/true", "--messages", "1", "--out", out]);
    assert_eq!((status, line.as_str()), (Some(1), "peer: FAILED: a message differs"));
    let (status, _, line) = verdict(&["--cases", "/bin/true", "--ibans", "1", "--out", out]);
    assert_eq!((status, line.as_str()), (Some(1), "peer: FAILED: a text for the IBAN check differs"));
    let (status, _, line) = verdict(&["--cases", "/bin/cat", "--ibans", "1", "--out", out]);
    assert_eq!((status, line.as_str()), (Some(1), "peer: FAILED: a text for the IBAN check differs"));
    std::fs::remove_dir_all(folder).expect("what differs was written there");
}

#[test]
fn help_is_no_mistake() {
    let output = check(&["--help"]);
    assert_eq!((output.status.code(), output.stderr.len()), (Some(0), 0));
    assert!(output.stdout.starts_with(b"usage: check "));
    let output = check(&["--hlep"]);
    assert_eq!((output.status.code(), output.stdout.len()), (Some(2), 0));
}
