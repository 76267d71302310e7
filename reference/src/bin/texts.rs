//! Writes the random text of a seed, or counts the answers to the texts of many seeds.

use std::collections::BTreeMap;
use std::env;
use std::io::{self, Write};
use std::process::ExitCode;

use reference::answer::Answer;
use reference::{generator, judged};

const USAGE: &str = "usage: texts SEED
       texts counts FROM TO

The first form writes the text of a seed to standard output. The second counts the
answers of the reference box to the texts of the seeds FROM to TO, both included.";

fn main() -> ExitCode {
    let arguments: Vec<String> = env::args().skip(1).collect();
    let words: Vec<&str> = arguments.iter().map(String::as_str).collect();
    let written = match words.as_slice() {
        ["counts", from, to] => match (from.parse(), to.parse()) {
            (Ok(from), Ok(to)) => write_counts(from, to),
            _ => return wrong_usage(),
        },
        [seed] => match seed.parse() {
            Ok(seed) => io::stdout().write_all(&generator::text(seed)),
            Err(_) => return wrong_usage(),
        },
        _ => return wrong_usage(),
    };
    match written {
        Ok(()) => ExitCode::SUCCESS,
        Err(error) => {
            eprintln!("texts: cannot write: {error}");
            ExitCode::FAILURE
        }
    }
}

fn wrong_usage() -> ExitCode {
    eprintln!("{USAGE}");
    ExitCode::from(2)
}

/// How often an answer came, and in how many texts.
#[derive(Default)]
struct Count {
    answers: usize,
    texts: usize,
}

fn write_counts(from: u64, to: u64) -> io::Result<()> {
    let mut counts: BTreeMap<(u8, String), Count> = BTreeMap::new();
    for seed in from..=to {
        let mut in_text: BTreeMap<(u8, String), usize> = BTreeMap::new();
        for record in judged(&generator::text(seed)) {
            *in_text.entry(key(record.answer)).or_default() += 1;
        }
        for (key, answers) in in_text {
            let count = counts.entry(key).or_default();
            count.answers += answers;
            count.texts += 1;
        }
    }
    let mut output = io::stdout().lock();
    writeln!(output, "| answer | times | in texts |\n|---|---|---|")?;
    for ((_, words), count) in counts {
        writeln!(output, "| {words} | {} | {} |", count.answers, count.texts)?;
    }
    Ok(())
}

/// Orders the answers: accepted ones first, then refusals by their numbers.
fn key(answer: Answer) -> (u8, String) {
    let words = answer.words().unwrap_or_else(|| "(no line)".to_string());
    match answer {
        Answer::Refused(refusal) => (refusal.number(), format!("`{words}`")),
        Answer::Silent => (0, words),
        _ => (0, format!("`{words}`")),
    }
}
