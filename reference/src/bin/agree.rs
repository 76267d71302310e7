//! Compares the answers of a program with those of the reference box on random texts.

use std::env;
use std::fmt;
use std::io::{self, Read, Write};
use std::process::{Child, Command, ExitCode, ExitStatus, Stdio};
use std::thread;

use reference::console::Judged;
use reference::{generator, judged};

const USAGE: &str = "usage: agree PROGRAM FROM TO

Generates the texts of the seeds FROM to TO, both included, feeds each to PROGRAM on its
standard input, and compares every byte of its standard output with the answers of the
reference box. The exit status is 0 when all agree, 1 when some answer differs, and 2 when
PROGRAM cannot be run.";

/// The most bytes of a record that are shown.
const MOST_SHOWN: usize = 200;

fn main() -> ExitCode {
    let arguments: Vec<String> = env::args().skip(1).collect();
    let [program, from, to] = arguments.as_slice() else {
        return wrong_usage();
    };
    let (Ok(from), Ok(to)) = (from.parse(), to.parse()) else {
        return wrong_usage();
    };
    match compare(program, from, to) {
        Ok(0) => ExitCode::SUCCESS,
        Ok(_) => ExitCode::FAILURE,
        Err(error) => {
            eprintln!("agree: cannot run {program}: {error}");
            ExitCode::from(2)
        }
    }
}

fn wrong_usage() -> ExitCode {
    eprintln!("{USAGE}");
    ExitCode::from(2)
}

/// Compares the texts of all these seeds and gives the number of texts with a disagreement.
fn compare(program: &str, from: u64, to: u64) -> io::Result<usize> {
    let mut texts = 0;
    let mut answers = 0;
    let mut disagreements = 0;
    let mut ended_badly = 0;
    for seed in from..=to {
        let text = generator::text(seed);
        let records = judged(&text);
        let output = run(program, text.clone())?;
        if !output.status.success() {
            println!("seed {seed}: {program} ended with {}", output.status);
            ended_badly += 1;
        }
        if let Some(disagreement) = first_disagreement(&text, &records, &output.bytes) {
            println!("seed {seed}: {disagreement}");
            disagreements += 1;
        }
        texts += 1;
        answers += expected_lines(&records).len();
    }
    if ended_badly > 0 {
        println!("{program} ended with a status other than 0 on {ended_badly} texts");
    }
    println!("{texts} texts, {answers} answers, {disagreements} disagreements");
    Ok(disagreements)
}

/// What a program wrote, and how it ended.
struct Output {
    bytes: Vec<u8>,
    status: ExitStatus,
}

/// Runs the program with the text as its standard input.
fn run(program: &str, text: Vec<u8>) -> io::Result<Output> {
    let mut child = Command::new(program).stdin(Stdio::piped()).stdout(Stdio::piped()).spawn()?;
    let writer = write_in_background(&mut child, text);
    let mut bytes = Vec::new();
    if let Some(mut stdout) = child.stdout.take() {
        stdout.read_to_end(&mut bytes)?;
    }
    let status = child.wait()?;
    if let Some(writer) = writer {
        // A program that does not read its input to the end shows by its answers.
        let _ = writer.join();
    }
    Ok(Output { bytes, status })
}

/// Writes the text from a thread of its own, so that the program may answer while it reads.
fn write_in_background(
    child: &mut Child,
    text: Vec<u8>,
) -> Option<thread::JoinHandle<io::Result<()>>> {
    let mut stdin = child.stdin.take()?;
    Some(thread::spawn(move || stdin.write_all(&text)))
}

/// A record with an answer line: its number in the text from 1 on, the record, the line.
type ExpectedLine<'a> = (usize, &'a Judged, Vec<u8>);

fn expected_lines(records: &[Judged]) -> Vec<ExpectedLine<'_>> {
    let numbered =
        records.iter().enumerate().map(|(place, record)| (place + 1, record, record.answer.line()));
    numbered.filter(|(_, _, line)| !line.is_empty()).collect()
}

/// The first place at which the answers differ.
struct Disagreement {
    /// The number of the record in the text, from 1 on, and its bytes.
    record: Option<(usize, Vec<u8>)>,
    expected: Option<Vec<u8>>,
    found: Option<Vec<u8>>,
}

fn first_disagreement(text: &[u8], records: &[Judged], output: &[u8]) -> Option<Disagreement> {
    let mut rest = output;
    for (number, record, expected) in expected_lines(records) {
        if !rest.starts_with(&expected) {
            return Some(Disagreement {
                record: Some((number, text[record.bytes.clone()].to_vec())),
                expected: Some(expected),
                found: first_line(rest),
            });
        }
        rest = &rest[expected.len()..];
    }
    first_line(rest).map(|line| Disagreement { record: None, expected: None, found: Some(line) })
}

/// The bytes up to the first LF and with it, if there is any byte.
fn first_line(bytes: &[u8]) -> Option<Vec<u8>> {
    let length =
        bytes.iter().position(|&byte| byte == b'\n').map_or(bytes.len(), |place| place + 1);
    (length > 0).then(|| bytes[..length].to_vec())
}

impl fmt::Display for Disagreement {
    fn fmt(&self, formatter: &mut fmt::Formatter<'_>) -> fmt::Result {
        match &self.record {
            Some((number, bytes)) => writeln!(formatter, "record {number}: {}", shown(bytes))?,
            None => writeln!(formatter, "behind the last record")?,
        }
        writeln!(formatter, "    reference: {}", shown_line(&self.expected))?;
        write!(formatter, "    program:   {}", shown_line(&self.found))
    }
}

fn shown(bytes: &[u8]) -> String {
    let length = bytes.len().min(MOST_SHOWN);
    let cut = if bytes.len() > length { "..." } else { "" };
    format!("{}{cut}", bytes[..length].escape_ascii())
}

fn shown_line(line: &Option<Vec<u8>>) -> String {
    line.as_ref().map_or_else(|| "(no line)".to_string(), |bytes| shown(bytes))
}

#[cfg(test)]
mod tests {
    use super::*;

    const TEXT: &[u8] = b"U,bob\r\nU,bob\r\nend,0\r\n";

    fn disagreement(output: &[u8]) -> Option<String> {
        first_disagreement(TEXT, &judged(TEXT), output).map(|found| found.to_string())
    }

    #[test]
    fn equal_answers_agree() {
        assert_eq!(disagreement(b"refused,8\r\nrefused,27\r\n"), None);
    }

    #[test]
    fn the_first_answer_that_differs_is_shown_with_its_record() {
        let shown = disagreement(b"refused,8\r\nrefused,2\r\n").expect("differs");
        assert!(shown.starts_with("record 3: end,0\\r\\n"), "{shown}");
        assert!(shown.contains("reference: refused,27\\r\\n"), "{shown}");
        assert!(shown.contains("program:   refused,2\\r\\n"), "{shown}");
    }

    #[test]
    fn missing_and_additional_answers_are_seen() {
        let missing = disagreement(b"refused,8\r\n").expect("differs");
        assert!(missing.contains("program:   (no line)"), "{missing}");
        let additional = disagreement(b"refused,8\r\nrefused,27\r\nok\r\n").expect("differs");
        assert!(additional.starts_with("behind the last record"), "{additional}");
        let without_cr = disagreement(b"refused,8\nrefused,27\n").expect("differs");
        assert!(without_cr.starts_with("record 2: "), "{without_cr}");
    }
}
