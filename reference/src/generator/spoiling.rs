//! Spoils single records, and damages whole texts.

use super::random::Random;
use super::scribe::{encode, Field};
use super::words::{bad_spelling, unknown_record_name};

/// The bytes of a record with one thing or more wrong, or at least unusual, about it.
pub fn spoilt_record(random: &mut Random, mut fields: Vec<Field>) -> Vec<u8> {
    if random.percent(20) {
        return with_fault(random, encode(&fields));
    }
    for _ in 0..random.choose(&[1, 1, 1, 1, 2, 2, 3]) {
        spoil(random, &mut fields);
    }
    let record = encode(&fields);
    if random.percent(5) {
        with_fault(random, record)
    } else {
        record
    }
}

fn spoil(random: &mut Random, fields: &mut Vec<Field>) {
    let place = random.below(fields.len());
    let behind_name = place.max(1).min(fields.len() - 1);
    match random.below(19) {
        0 if fields.len() > 1 => drop(fields.pop()),
        1 if fields.len() > 1 => drop(fields.remove(place)),
        2 => fields.push(Field::bare(b"")),
        3 => fields.push(fields[place].clone()),
        4 => lengthen(random, fields),
        5 => fields[0].value = other_case(&fields[0].value),
        6 | 7 => fields[0].value = unknown_record_name(random),
        8..=10 => fields[behind_name].value = bad_spelling(random),
        11 => fields[behind_name].value = b"nobody".to_vec(),
        12 => fields.swap(place, behind_name),
        13 => *fields = vec![Field::bare(b"")],
        14 => fields.iter_mut().for_each(|field| field.quoted = true),
        15 => fields[place].value.extend_from_slice(random.choose(&[
            &b"\"\""[..],
            b",",
            b"\r\n",
            b"\n",
            b"\r",
        ])),
        _ => stretch_number(random, fields),
    }
}

/// Gives a number among the fields more digits, if there is one.
fn stretch_number(random: &mut Random, fields: &mut [Field]) {
    let is_number =
        |field: &Field| !field.value.is_empty() && field.value.iter().all(u8::is_ascii_digit);
    let places: Vec<usize> = (0..fields.len()).filter(|&place| is_number(&fields[place])).collect();
    if let Some(place) = random.one_of(&places) {
        let digits = &mut fields[place].value;
        if random.percent(50) {
            digits.insert(0, b'0');
        } else {
            digits.resize(random.between(6, 7), b'0');
        }
    }
}

/// Repeats the last field until the record has about 40 fields.
fn lengthen(random: &mut Random, fields: &mut Vec<Field>) {
    let wanted = random.choose(&[39, 40, 40, 41, 41, 42, 50, 70]);
    if let Some(last) = fields.last().cloned() {
        while fields.len() < wanted {
            fields.push(last.clone());
        }
    }
}

fn other_case(word: &[u8]) -> Vec<u8> {
    let is_lower = word.iter().any(u8::is_ascii_lowercase);
    if is_lower {
        word.to_ascii_uppercase()
    } else {
        word.to_ascii_lowercase()
    }
}

/// Breaks the layout of a written record: its quotes or its line break.
fn with_fault(random: &mut Random, mut record: Vec<u8>) -> Vec<u8> {
    let body = record.len() - 2;
    let place = random.below(body + 1);
    match random.below(8) {
        0..=2 => record.insert(place, random.choose(b"\"\"\r\n")),
        3 => drop(record.remove(body)),
        4 => drop(record.remove(body + 1)),
        5 => record.insert(body, b'\r'),
        6 => drop(record.splice(body..body, *b"\"x\"y")),
        _ => drop(record.splice(body..body, *b", \"z\"")),
    }
    record
}

/// Strikes a text so many times at random places.
pub fn damage(random: &mut Random, text: &mut Vec<u8>, blows: usize) {
    for _ in 0..blows {
        if !text.is_empty() {
            strike(random, text);
        }
    }
}

fn strike(random: &mut Random, text: &mut Vec<u8>) {
    let place = random.below(text.len());
    match random.below(12) {
        0 | 1 => text[place] ^= 1 << random.below(8),
        2 | 3 => drop(text.remove(place)),
        4 => text.insert(place, random.below(256) as u8),
        5 => text.insert(place, b'\r'),
        6 => text.insert(place, b'\n'),
        7 => text.insert(place, b'"'),
        8 => text.insert(place, b','),
        9 => text[place] = random.choose(b"\"\r\n,\0 \xff"),
        10 => text.truncate(place.max(text.len() / 2)),
        _ => repeat_stretch(random, text, place),
    }
}

/// Writes a short stretch of the text a second time behind itself.
fn repeat_stretch(random: &mut Random, text: &mut Vec<u8>, place: usize) {
    let end = text.len().min(place + random.between(1, 60));
    let stretch = text[place..end].to_vec();
    text.splice(end..end, stretch);
}

/// Changes something about every line of a text, or about its beginning.
pub fn damage_throughout(random: &mut Random, text: &mut Vec<u8>) {
    match random.below(4) {
        0 => text.retain(|&byte| byte != b'\r'),
        1 => text.retain(|&byte| byte != b'\n'),
        2 => text.retain(|&byte| byte != b'"'),
        _ => drop(text.splice(0..0, *b"\xef\xbb\xbf")),
    }
}

/// A handful of pieces in any order: mostly about quotes and line breaks.
pub fn scraps(random: &mut Random) -> Vec<u8> {
    const PIECES: [&[u8]; 26] = [
        b"\"",
        b"\"",
        b"\"",
        b"\"\"",
        b",",
        b",",
        b",",
        b"\r",
        b"\n",
        b"\r\n",
        b"\r\n",
        b"\r\n",
        b"U",
        b"U,",
        b"U,bob",
        b"R,r",
        b"UA,bob,r",
        b"open,1",
        b"bob",
        b" ",
        b"\0",
        b"\xff",
        b"\xef\xbb\xbf",
        b"\"U\",\"ann\"",
        b"clock,5",
        b"end,0",
    ];
    let mut text = Vec::new();
    for _ in 0..random.between(1, 60) {
        text.extend_from_slice(random.choose(&PIECES));
    }
    text
}
