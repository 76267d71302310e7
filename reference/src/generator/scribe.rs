//! Writes records one after another and does each on a console of its own, so that what comes
//! next can be chosen by what the house is now.

use super::random::Random;
use super::spoiling;
use super::words::NameStyle;
use crate::console::{Console, Name};
use crate::house::SESSIONS;
use crate::tables::{List, Number};

/// How a text is written.
#[derive(Clone, Copy, Debug)]
pub struct Manner {
    pub names: NameStyle,
    /// Of a thousand records, how many are spoilt.
    pub noise: usize,
    /// Of a hundred fields, how many are quoted.
    pub quoting: usize,
    /// Of a hundred requests, how many are aimed to be accepted.
    pub aim: usize,
}

/// One field of a record before it is written.
#[derive(Clone, Debug)]
pub struct Field {
    pub value: Vec<u8>,
    pub quoted: bool,
}

impl Field {
    pub fn bare(value: &[u8]) -> Field {
        Field { value: value.to_vec(), quoted: false }
    }
}

/// What a field of a request is to name. Without a number any will do.
#[derive(Clone, Copy, Debug)]
pub enum Pick {
    Of(List, Option<Number>),
    Session(Option<Number>),
    Number(Number),
    Word(&'static str),
}

pub struct Scribe {
    pub random: Random,
    pub manner: Manner,
    console: Console,
    text: Vec<u8>,
}

impl Scribe {
    pub fn new(random: Random, manner: Manner) -> Scribe {
        Scribe { random, manner, console: Console::default(), text: Vec::new() }
    }

    pub fn console(&self) -> &Console {
        &self.console
    }

    /// The source of chance together with the console, to choose by what the house is now.
    pub fn random_and_console(&mut self) -> (&mut Random, &Console) {
        (&mut self.random, &self.console)
    }

    /// How many bytes are written.
    pub fn length(&self) -> usize {
        self.text.len()
    }

    pub fn finish(self) -> (Random, Vec<u8>) {
        (self.random, self.text)
    }

    /// Writes a record, spoilt at times, and does it.
    pub fn write(&mut self, record_name: &str, values: &[Vec<u8>]) {
        let mut fields = vec![Field::bare(record_name.as_bytes())];
        fields.extend(values.iter().map(|value| Field::bare(value)));
        for field in &mut fields {
            field.quoted = self.random.percent(self.manner.quoting);
        }
        let record = if self.random.per_mille(self.manner.noise) {
            spoiling::spoilt_record(&mut self.random, fields)
        } else {
            encode(&fields)
        };
        self.append(&record);
    }

    /// Writes bytes as they are and does the records in them.
    pub fn append(&mut self, bytes: &[u8]) {
        let mut place = self.text.len();
        self.text.extend_from_slice(bytes);
        while place < self.text.len() {
            place = self.console.read_one(&self.text, place).bytes.end;
        }
    }

    /// Writes a request. Some of its fields go astray when it is not aimed.
    pub fn request(&mut self, record_name: &str, picks: &[Pick]) {
        let mut picks = picks.to_vec();
        if !picks.is_empty() && !self.random.percent(self.manner.aim) {
            let strays = self.random.choose(&[1, 1, 1, 1, 2, picks.len()]);
            for _ in 0..strays {
                let place = self.random.below(picks.len());
                picks[place] = astray(picks[place], &mut self.random);
            }
        }
        let values: Vec<Vec<u8>> = picks.iter().map(|&pick| self.value(pick)).collect();
        self.write(record_name, &values);
    }

    fn value(&mut self, pick: Pick) -> Vec<u8> {
        match pick {
            Pick::Of(list, Some(number)) => self.name(list, number),
            Pick::Of(list, None) => self.any_name(list),
            Pick::Session(Some(number)) | Pick::Number(number) => number.to_string().into_bytes(),
            Pick::Session(None) => any_session(&mut self.random).to_string().into_bytes(),
            Pick::Word(word) => word.as_bytes().to_vec(),
        }
    }

    /// The name under which this thing is declared.
    pub fn name(&self, list: List, number: Number) -> Name {
        let declared = self.console.names().of(list).get(number).cloned();
        declared.unwrap_or_else(|| self.manner.names.name(list, number))
    }

    /// A name that is not declared in this table.
    pub fn fresh_name(&self, list: List) -> Name {
        let names = self.console.names();
        let mut number = names.of(list).len();
        while names.find(list, &self.manner.names.name(list, number)).is_some() {
            number += 1;
        }
        self.manner.names.name(list, number)
    }

    /// Mostly a declared name, with the latest ones more often than the others.
    pub fn any_name(&mut self, list: List) -> Name {
        let names = self.console.names().of(list);
        match self.random.below(20) {
            0 => self.manner.names.name(list, names.len() + self.random.below(3)),
            1..=4 if !names.is_empty() => names[names.len() - 1].clone(),
            _ => match self.random.one_of(names) {
                Some(name) => name,
                None => self.manner.names.name(list, 0),
            },
        }
    }
}

fn astray(pick: Pick, random: &mut Random) -> Pick {
    match pick {
        Pick::Of(list, _) => Pick::Of(list, None),
        Pick::Session(_) => Pick::Session(None),
        Pick::Number(_) => Pick::Number(random.choose(&[10_079, 10_080, 10_081, 16, 999_999])),
        Pick::Word(_) => Pick::Word(random.choose(&["true", "false", "True", "0"])),
    }
}

fn any_session(random: &mut Random) -> Number {
    match random.below(12) {
        0 => SESSIONS,
        1 => random.choose(&[17, 32, 255, 256, 65_536, 999_999]),
        2..=4 => random.below(SESSIONS),
        _ => random.below(4),
    }
}

/// The bytes of a record with its line break.
pub fn encode(fields: &[Field]) -> Vec<u8> {
    let mut bytes = Vec::new();
    for (place, field) in fields.iter().enumerate() {
        if place > 0 {
            bytes.push(b',');
        }
        let needs_quotes = field.value.iter().any(|byte| b",\"\r\n".contains(byte));
        if field.quoted || needs_quotes {
            bytes.push(b'"');
            bytes.extend_from_slice(&field.value);
            bytes.push(b'"');
        } else {
            bytes.extend_from_slice(&field.value);
        }
    }
    bytes.extend_from_slice(b"\r\n");
    bytes
}
