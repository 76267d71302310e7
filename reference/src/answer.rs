//! What a record is answered, and the line that says so.

use crate::refusal::Refusal;

#[derive(Clone, Copy, Debug, PartialEq, Eq)]
pub enum Answer {
    /// An accepted table record: no line.
    Silent,
    Accepted,
    Granted,
    Denied,
    Refused(Refusal),
}

impl Answer {
    /// The bytes of the answer's line without its line break, where it has one.
    pub fn words(self) -> Option<String> {
        match self {
            Answer::Silent => None,
            Answer::Accepted => Some("ok".to_string()),
            Answer::Granted => Some("grant".to_string()),
            Answer::Denied => Some("deny".to_string()),
            Answer::Refused(refusal) => Some(format!("refused,{}", refusal.number())),
        }
    }

    /// The bytes that the program writes.
    pub fn line(self) -> Vec<u8> {
        self.words().map_or_else(Vec::new, |words| format!("{words}\r\n").into_bytes())
    }
}
