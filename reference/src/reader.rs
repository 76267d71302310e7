//! How bytes become records: RFC 4180 with CRLF as the only line break.

const COMMA: u8 = b',';
const QUOTE: u8 = b'"';
const CR: u8 = b'\r';
const LF: u8 = b'\n';

/// One record without a fault.
#[derive(Clone, Debug, PartialEq, Eq)]
pub struct Record {
    /// The values of its fields; at least one.
    pub fields: Vec<Vec<u8>>,
    /// Where the next record begins, or the end of the text.
    pub next: usize,
}

/// What is wrong with a record's quotes or line breaks.
#[derive(Clone, Copy, Debug, PartialEq, Eq)]
pub struct Fault {
    /// The byte at fault; for an open quote the end of the text.
    pub place: usize,
    /// Where reading goes on, or the end of the text.
    pub next: usize,
}

#[derive(Clone, Copy)]
enum State {
    Start,
    Bare,
    Quoted,
    AfterQuote,
}

/// What stands at a place of the text: a column of the table of states.
enum Sign {
    Comma,
    Quote,
    LineBreak,
    LoneCr,
    Lf,
    End,
    Ordinary,
}

/// What the table of states says for a state and a sign.
enum Move {
    FieldEnds,
    RecordEnds,
    Fault,
    Stay(State),
}

/// Reads the record that begins at `start`, which lies before the end of the text.
pub fn read_record(text: &[u8], start: usize) -> Result<Record, Fault> {
    let mut fields = Vec::new();
    let mut field_start = start;
    let mut state = State::Start;
    let mut place = start;
    loop {
        match next_move(state, sign_at(text, place)) {
            Move::Stay(next_state) => state = next_state,
            Move::FieldEnds => {
                fields.push(field_value(text, field_start, place, state));
                field_start = place + 1;
                state = State::Start;
            }
            Move::RecordEnds => {
                fields.push(field_value(text, field_start, place, state));
                let next = text.len().min(place + 2);
                return Ok(Record { fields, next });
            }
            Move::Fault => {
                let next = behind_next_line_break(text, place);
                return Err(Fault { place, next });
            }
        }
        place += 1;
    }
}

fn sign_at(text: &[u8], place: usize) -> Sign {
    match text.get(place) {
        None => Sign::End,
        Some(&COMMA) => Sign::Comma,
        Some(&QUOTE) => Sign::Quote,
        Some(&LF) => Sign::Lf,
        Some(&CR) if text.get(place + 1) == Some(&LF) => Sign::LineBreak,
        Some(&CR) => Sign::LoneCr,
        Some(_) => Sign::Ordinary,
    }
}

fn next_move(state: State, sign: Sign) -> Move {
    match (state, sign) {
        (State::Quoted, Sign::Quote) => Move::Stay(State::AfterQuote),
        (State::Quoted, Sign::End) => Move::Fault,
        (State::Quoted, _) => Move::Stay(State::Quoted),

        (_, Sign::Comma) => Move::FieldEnds,
        (_, Sign::LineBreak | Sign::End) => Move::RecordEnds,
        (_, Sign::LoneCr | Sign::Lf) => Move::Fault,

        (State::Start | State::AfterQuote, Sign::Quote) => Move::Stay(State::Quoted),
        (State::Bare, Sign::Quote) => Move::Fault,

        (State::Start | State::Bare, Sign::Ordinary) => Move::Stay(State::Bare),
        (State::AfterQuote, Sign::Ordinary) => Move::Fault,
    }
}

/// The value of the field that lies from `start` to `end` and ends in this state.
fn field_value(text: &[u8], start: usize, end: usize, state: State) -> Vec<u8> {
    match state {
        State::AfterQuote => text[start + 1..end - 1].to_vec(),
        State::Start | State::Bare | State::Quoted => text[start..end].to_vec(),
    }
}

/// The place behind the first CRLF that begins at `place` or later, else the end of the text.
fn behind_next_line_break(text: &[u8], place: usize) -> usize {
    (place..text.len())
        .find(|&at| text[at..].starts_with(&[CR, LF]))
        .map_or(text.len(), |at| at + 2)
}

#[cfg(test)]
mod tests {
    use super::*;

    fn values(text: &str) -> Vec<String> {
        let record = read_record(text.as_bytes(), 0).expect("no fault");
        let as_text = |field: &Vec<u8>| String::from_utf8(field.clone()).expect("ASCII");
        record.fields.iter().map(as_text).collect()
    }

    /// The table of faults in the description of the format.
    #[test]
    fn faults_have_their_place_and_reading_goes_on_where_it_should() {
        let cases: [(&str, usize, usize); 10] = [
            ("U,bo\"b\r\nR,r", 4, 8),
            ("U,\"bob\"x\r\nR,r", 7, 10),
            ("U, \"bob\"\r\nR,r", 3, 10),
            ("U,bob\nR,r\r\nD,d", 5, 11),
            ("U,bob\rR,r\r\nD,d", 5, 11),
            ("U,a\r\r\nR,r", 3, 6),
            ("U,a\r", 3, 4),
            ("U,\"b\r\nR,r", 9, 9),
            ("U,\"a\r\nb\"c\r\nR,r", 8, 11),
            ("U,a\"b\r\nc\",d", 3, 7),
        ];
        for (text, place, next) in cases {
            assert_eq!(read_record(text.as_bytes(), 0), Err(Fault { place, next }), "{text:?}");
        }
    }

    #[test]
    fn the_rest_behind_a_fault_may_have_a_fault_of_its_own() {
        let text = b"U,a\"b\r\nc\",d";
        assert_eq!(read_record(text, 7), Err(Fault { place: 8, next: 11 }));
    }

    #[test]
    fn fields_are_bare_or_quoted() {
        assert_eq!(values("U,bob"), ["U", "bob"]);
        assert_eq!(values("\"U\",\"bob\"\r\nrest"), ["U", "bob"]);
        assert_eq!(values("U,\"a\"\"n\""), ["U", "a\"\"n"]);
        assert_eq!(values("\"a\r\nb,c\",,\"\""), ["a\r\nb,c", "", ""]);
        assert_eq!(values("U,"), ["U", ""]);
        assert_eq!(values("\r\nU,bob"), [""]);
        assert_eq!(values("\"\"\"\""), ["\"\""]);
    }

    #[test]
    fn the_next_record_begins_behind_the_line_break() {
        assert_eq!(read_record(b"U,a\r\nR,r", 0).map(|r| r.next), Ok(5));
        assert_eq!(read_record(b"U,a\r\nR,r", 5).map(|r| r.next), Ok(8));
        assert_eq!(read_record(b"\r\n", 0).map(|r| r.next), Ok(2));
    }
}
