//! Random texts: houses that live, with everything that can go wrong in a text.

mod founding;
mod living;
mod random;
mod scribe;
mod spoiling;
mod words;

use crate::console::LONGEST_TEXT;
use founding::{Size, UNLAWFUL};
use random::Random;
use scribe::{Manner, Scribe};
use words::NameStyle;

/// How long a text is to be.
#[derive(Clone, Copy, Debug, PartialEq, Eq)]
enum Length {
    /// At least so many bytes more than its tables.
    Beyond(usize),
    /// Exactly so many bytes.
    Exactly(usize),
}

/// The text of a seed. The same seed always gives the same text.
pub fn text(seed: u64) -> Vec<u8> {
    let mut random = Random::new(seed);
    match random.below(100) {
        0 => Vec::new(),
        1..=6 => spoiling::scraps(&mut random),
        7..=10 => overlong_text(random),
        11..=14 => {
            let length = LONGEST_TEXT - random.choose(&[0, 0, 1, 2, 3, 40]);
            house_text(random, Length::Exactly(length))
        }
        15..=24 => {
            let length = random.between(10_000, 24_000);
            house_text(random, Length::Beyond(length))
        }
        _ => {
            let length = random.between(300, 6_000);
            house_text(random, Length::Beyond(length))
        }
    }
}

/// A text that is too long, by a byte or by many.
fn overlong_text(mut random: Random) -> Vec<u8> {
    let length = LONGEST_TEXT + random.choose(&[1, 1, 2, 100, 5_000, LONGEST_TEXT]);
    if random.percent(50) {
        return vec![random.choose(b"x\"\n,"); length];
    }
    house_text(random, Length::Exactly(length))
}

/// A house, its life, and its end.
fn house_text(mut random: Random, length: Length) -> Vec<u8> {
    let manner = random_manner(&mut random);
    let size = Size::random(&mut random);
    let blows = if random.percent(25) { random.between(1, 4) } else { 0 };
    let mut scribe = Scribe::new(random, manner);
    scribe.found(size);
    open_first(&mut scribe);
    let end = end_of_life(length, scribe.length());
    scribe.live(scribe.length() + end.saturating_sub(scribe.length()) * 2 / 3);
    spoil_draft(&mut scribe, 70);
    scribe.live(end);
    let (mut random, mut text) = scribe.finish();
    fit(&mut random, &mut text, length);
    spoiling::damage(&mut random, &mut text, blows);
    if random.percent(6) {
        spoiling::damage_throughout(&mut random, &mut text);
    }
    text
}

fn random_manner(random: &mut Random) -> Manner {
    Manner {
        names: NameStyle::random(random),
        noise: random.choose(&[0, 5, 20, 20, 50, 150]),
        quoting: random.choose(&[0, 0, 0, 2, 50, 100]),
        aim: random.choose(&[50, 70, 85, 95]),
    }
}

/// The first opening, at times with requests before it or with a draft that cannot open.
fn open_first(scribe: &mut Scribe) {
    if scribe.random.percent(10) {
        let length = scribe.length();
        scribe.live(length + 400);
    }
    spoil_draft(scribe, 8);
    scribe.end_all();
    scribe.open();
    scribe.populate();
}

/// Makes the draft unlawful with this chance, for one reason or more, and tries to open it.
fn spoil_draft(scribe: &mut Scribe, chance: usize) {
    if !scribe.random.percent(chance) {
        return;
    }
    for _ in 0..scribe.random.choose(&[1, 1, 2, 2, 3]) {
        let reason = scribe.random.choose(&UNLAWFUL);
        scribe.make_unlawful(reason);
        if scribe.random.percent(80) {
            scribe.end_all();
        }
        scribe.open();
    }
}

/// Where the requests end, in bytes of the text.
fn end_of_life(length: Length, tables: usize) -> usize {
    match length {
        Length::Beyond(bytes) => (tables + bytes).min(LONGEST_TEXT - 200),
        Length::Exactly(bytes) => bytes.saturating_sub(150),
    }
}

/// Cuts the text to its length, or fills it up with a record that is none.
fn fit(random: &mut Random, text: &mut Vec<u8>, length: Length) {
    match length {
        Length::Beyond(_) => {
            text.truncate(LONGEST_TEXT);
            if random.percent(20) {
                text.truncate(text.len().saturating_sub(2));
            }
        }
        Length::Exactly(bytes) => {
            text.resize(bytes, b'x');
            if random.percent(50) {
                text[bytes - 2..].copy_from_slice(b"\r\n");
            }
        }
    }
}

#[cfg(test)]
mod tests {
    use super::*;
    use crate::answer::Answer;
    use crate::judged;
    use std::collections::BTreeSet;

    #[test]
    fn a_seed_gives_the_same_text_every_time() {
        for seed in 0..20 {
            assert_eq!(text(seed), text(seed));
        }
    }

    #[test]
    fn every_refusal_that_a_text_can_meet_comes_up() {
        let mut met = BTreeSet::new();
        for seed in 0..150 {
            for record in judged(&text(seed)) {
                if let Answer::Refused(refusal) = record.answer {
                    met.insert(refusal.number());
                }
            }
        }
        let expected: BTreeSet<u8> = (3..=31).filter(|number| ![17, 20].contains(number)).collect();
        assert_eq!(met, expected);
    }
}
