//! What a program answers, and where an answer differs from an expected one.

use std::process::Output;

#[derive(Clone, Debug, PartialEq, Eq)]
pub struct Answer {
    pub stdout: String,
    pub stderr: String,
    pub status: u8,
}

/// What is expected of a program.
#[derive(Clone, Debug, PartialEq, Eq)]
pub enum Expected {
    Answer(Answer),
    /// Status 1, and on standard error one line that begins with these words.
    Failure(&'static str),
}

/// The first difference in words, or `None` if the program did just what is
/// expected.
pub fn difference(expected: &Expected, got: &Output) -> Option<String> {
    match expected {
        Expected::Answer(expected) => answer_difference(expected, got),
        Expected::Failure(words) => line_difference("standard output", b"", &got.stdout)
            .or_else(|| one_line_difference("standard error", words, &got.stderr))
            .or_else(|| status_difference(1, got.status.code())),
    }
}

fn answer_difference(expected: &Answer, got: &Output) -> Option<String> {
    line_difference("standard output", expected.stdout.as_bytes(), &got.stdout)
        .or_else(|| line_difference("standard error", expected.stderr.as_bytes(), &got.stderr))
        .or_else(|| status_difference(expected.status, got.status.code()))
}

fn line_difference(what: &str, expected: &[u8], got: &[u8]) -> Option<String> {
    if expected == got {
        return None;
    }
    let mut expected = expected.split_inclusive(|byte| *byte == b'\n');
    let mut got = got.split_inclusive(|byte| *byte == b'\n');
    let mut number = 1;
    loop {
        let (expected, got) = (expected.next(), got.next());
        if expected != got {
            let (expected, got) = (shown(expected), shown(got));
            return Some(format!("{what}, line {number}: expected {expected}, got {got}"));
        }
        number += 1;
    }
}

fn one_line_difference(what: &str, words: &str, got: &[u8]) -> Option<String> {
    match got.split_last() {
        Some((b'\n', line))
            if !line.is_empty() && !line.contains(&b'\n') && line.starts_with(words.as_bytes()) =>
        {
            None
        }
        _ => Some(format!("{what}: expected one line {words:?} .., got {}", shown(Some(got)))),
    }
}

fn shown(line: Option<&[u8]>) -> String {
    match line {
        Some(line) => format!("{:?}", String::from_utf8_lossy(line)),
        None => "the end".to_string(),
    }
}

fn status_difference(expected: u8, got: Option<i32>) -> Option<String> {
    match got {
        Some(status) if status == i32::from(expected) => None,
        Some(status) => Some(format!("status: expected {expected}, got {status}")),
        None => Some(format!("status: expected {expected}, got a signal")),
    }
}

#[cfg(test)]
mod tests {
    use super::*;

    #[test]
    fn names_the_first_line_that_differs() {
        assert_eq!(line_difference("text", b"1 2\n3 4\n", b"1 2\n3 4\n"), None);
        assert_eq!(
            line_difference("text", b"1 2\n3 4\n", b"1 2\n3 5\n").as_deref(),
            Some(r#"text, line 2: expected "3 4\n", got "3 5\n""#)
        );
        assert_eq!(
            line_difference("text", b"1 2\n3 4\n", b"1 2\n").as_deref(),
            Some(r#"text, line 2: expected "3 4\n", got the end"#)
        );
        assert_eq!(
            line_difference("text", b"1 2\n", b"1 2").as_deref(),
            Some(r#"text, line 1: expected "1 2\n", got "1 2""#)
        );
    }

    #[test]
    fn one_line_is_one_whole_line() {
        assert_eq!(one_line_difference("text", "", b"no such file\n"), None);
        for got in ["", "\n", "no end", "two\nlines\n", "two\nlines"] {
            assert!(one_line_difference("text", "", got.as_bytes()).is_some(), "{got:?}");
        }
    }

    #[test]
    fn one_line_begins_with_its_words() {
        assert_eq!(one_line_difference("text", "file: ", b"file: no such file\n"), None);
        for got in ["no such file\n", "file\n", "Error: file: no such file\n"] {
            assert!(one_line_difference("text", "file: ", got.as_bytes()).is_some(), "{got:?}");
        }
    }

    #[test]
    fn a_signal_is_a_difference() {
        assert_eq!(status_difference(0, Some(0)), None);
        assert!(status_difference(0, Some(1)).is_some());
        assert!(status_difference(0, None).is_some());
    }
}
