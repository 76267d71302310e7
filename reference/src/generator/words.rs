//! Names of all sorts, well and badly written.

use super::random::Random;
use crate::console::Name;
use crate::tables::List;

/// How the names of a text look.
#[derive(Clone, Copy, Debug, PartialEq, Eq)]
pub enum NameStyle {
    /// A letter for the table and a number: `u0`.
    Short,
    /// The same names in every table: `n0`.
    Shared,
    /// Digits only: `0`.
    Digits,
    /// 24 bytes each.
    Long,
    /// Words that mean something elsewhere: `U`, `open`, `true`.
    Borrowed,
    /// Names that differ in capitals only: `tv`, `TV`.
    Capitals,
}

impl NameStyle {
    pub fn random(random: &mut Random) -> NameStyle {
        match random.below(20) {
            0..=9 => NameStyle::Short,
            10..=12 => NameStyle::Shared,
            13..=14 => NameStyle::Digits,
            15 => NameStyle::Long,
            16..=17 => NameStyle::Borrowed,
            _ => NameStyle::Capitals,
        }
    }

    /// The name of the thing with this number. No two things of a table have the same.
    pub fn name(self, list: List, number: usize) -> Name {
        let letter = letters_of(list);
        let name = match self {
            NameStyle::Short => format!("{letter}{number}"),
            NameStyle::Shared => format!("n{number}"),
            NameStyle::Digits => format!("{number}"),
            NameStyle::Long => format!("{letter:_>20}_{number:03}"),
            NameStyle::Borrowed => borrowed(number),
            NameStyle::Capitals => in_capitals(letter, number),
        };
        name.into_bytes()
    }
}

fn letters_of(list: List) -> &'static str {
    match list {
        List::Users => "u",
        List::Roles => "r",
        List::Devices => "d",
        List::Operations => "o",
        List::Permissions => "p",
        List::DeviceRoles => "f",
        List::Conditions => "c",
        List::EnvironmentRoles => "e",
        List::Entries => "a",
        List::RolePairs => "q",
        List::Units => "w",
    }
}

fn borrowed(number: usize) -> String {
    const WORDS: [&str; 14] = [
        "U", "open", "true", "R", "false", "OP", "0", "_", "end", "PDRA", "window", "RP", "16", "u",
    ];
    let word = WORDS[number % WORDS.len()];
    match number / WORDS.len() {
        0 => word.to_string(),
        round => format!("{word}_{round}"),
    }
}

fn in_capitals(letter: &str, number: usize) -> String {
    let word = format!("{letter}x{}", number / 4);
    match number % 4 {
        0 => word,
        1 => word.to_uppercase(),
        2 => word.replace('x', "X"),
        _ => word.replacen(letter, &letter.to_uppercase(), 1),
    }
}

/// A field that some columns do not take.
pub fn bad_spelling(random: &mut Random) -> Vec<u8> {
    const SPELLINGS: [&str; 40] = [
        "",
        " ",
        "a b",
        " bob",
        "bob ",
        "no-role",
        "00",
        "07",
        "+1",
        "-1",
        "-0",
        "1.0",
        "1e3",
        "0x1",
        "1000000",
        "9999999999999999999999",
        "999999",
        "0000000",
        "True",
        "TRUE",
        "yes",
        "true ",
        "tru",
        "truefalse",
        "false0",
        "abcdefghijklmnopqrstuvwx",
        "abcdefghijklmnopqrstuvwxy",
        "a.b",
        "a\tb",
        "'a'",
        "\u{e9}",
        "\u{feff}bob",
        "a\0",
        "\u{7f}",
        "\u{663}",
        "*",
        "@",
        "[",
        "`",
        "{",
    ];
    match random.below(12) {
        0 => vec![random.below(256) as u8 | 0x80],
        1 => random
            .choose(&[&b"a,b"[..], b"a\r\nb", b"a\"\"b", b"\"\"", b",", b"\r", b"\n", b"\r\n"])
            .to_vec(),
        2 => vec![b'n'; random.between(23, 26)],
        3 => vec![b'1'; random.between(5, 8)],
        _ => random.choose(&SPELLINGS).as_bytes().to_vec(),
    }
}

/// Something like a record name that is none.
pub fn unknown_record_name(random: &mut Random) -> Vec<u8> {
    const WORDS: [&str; 18] = [
        "",
        "u",
        "Ua",
        "X",
        "OPEN",
        "Open",
        "checkaccess",
        "check",
        "R_AT_RP",
        "RATRP",
        "P-AT",
        "assign",
        "assignrpdr",
        "prohibitedAssignment",
        "\u{feff}U",
        "U ",
        " U",
        "#",
    ];
    random.choose(&WORDS).as_bytes().to_vec()
}
