//! A second box for one house, written from `docs/RULES.md` and `docs/FORMAT.md` with plain
//! sets and loops. Its answers are compared with those of another box.
//!
//! * [`reader`] makes records of bytes, [`values`] and [`kinds`] say how they are written.
//! * [`draft`] and [`tables`] hold what a house is made of and tell whether it is lawful.
//! * [`house`] has the leases, changes, sessions and access checks, [`conditions`] the sensors
//!   and the clock.
//! * [`console`] does one record after another.
//! * [`generator`] makes random texts.

#![forbid(unsafe_code)]

pub mod answer;
pub mod conditions;
pub mod console;
pub mod draft;
pub mod generator;
pub mod house;
pub mod kinds;
pub mod reader;
pub mod refusal;
pub mod tables;
pub mod values;

use answer::Answer;
use console::{Console, Judged};

/// The bytes that the program writes for a text.
pub fn answers(text: &[u8]) -> Vec<u8> {
    judged(text).iter().flat_map(|record| record.answer.line()).collect()
}

/// What becomes of each record of a text in a new console. A text that is too long counts as
/// one refused record.
pub fn judged(text: &[u8]) -> Vec<Judged> {
    let read = Console::default().read_text(text);
    read.unwrap_or_else(|refusal| {
        let answer = Answer::Refused(refusal);
        vec![Judged { bytes: 0..text.len(), answer, place: None }]
    })
}

#[cfg(test)]
mod tests;
