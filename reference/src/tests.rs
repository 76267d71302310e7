//! The examples of the description of the format, and the example house.

use crate::answers;
use crate::console::{Console, LONGEST_TEXT};
use crate::judged;

/// The table "A first house": records with their answers, "" for none.
const FIRST_HOUSE: [(&str, &str); 20] = [
    ("U,bob", ""),
    ("R,r", ""),
    ("UA,bob,r", ""),
    ("D,tv", ""),
    ("OP,on", ""),
    ("P,tv,on", ""),
    ("DR,f", ""),
    ("PDRA,tv,on,f", ""),
    ("RP,q,r", ""),
    ("AR,w", ""),
    ("AUA,bob,w", ""),
    ("R-AT-RP,w,q", ""),
    ("R-AT-DR,w,f", ""),
    ("open,7", "ok"),
    ("start,0,bob", "ok"),
    ("activate,0,r", "ok"),
    ("checkAccess,0,tv,on", "deny"),
    ("assignRPDR,bob,w,q,f", "ok"),
    ("checkAccess,0,tv,on", "grant"),
    ("assignRPDR,bob,w,q,f", "refused,23"),
];

/// The table "More records behind it".
const MORE_RECORDS: [(&str, &str); 39] = [
    ("u,ann", "refused,5"),
    ("", "refused,5"),
    ("U", "refused,6"),
    ("U,ann,", "refused,6"),
    ("U,", "refused,7"),
    ("U, ann", "refused,7"),
    ("U,\"a\"\"n\"", "refused,7"),
    ("U,an\"n", "refused,4"),
    ("\"U\",\"bob\"", "refused,8"),
    ("P,tv,on", "refused,8"),
    ("UA,nobody,no-role", "refused,7"),
    ("RP,q,nothing", "refused,8"),
    ("UA,nobody,r", "refused,9"),
    ("UA,bob,r", ""),
    ("OP,off", ""),
    ("PDRA,tv,off,f", "refused,9"),
    ("assignPDR,bob,w,tv,off,f", "refused,9"),
    ("checkAccess,0,tv,off", "refused,18"),
    ("checkAccess,16,tv,on", "refused,18"),
    ("checkAccess,1,tv,on", "refused,27"),
    ("start,0,bob", "refused,26"),
    ("activate,0,r", "refused,29"),
    ("start,00,bob", "refused,7"),
    ("revokePDR,bob,w,tv,on,f", "refused,22"),
    ("revokeRPDR,bob,w,q,f", "ok"),
    ("revokeRPDR,bob,w,q,f", "refused,24"),
    ("open,7", "refused,11"),
    ("end,0", "ok"),
    ("end,0", "refused,27"),
    ("RP,q2,r", ""),
    ("open,8", "refused,12"),
    ("start,0,bob", "ok"),
    ("EC,door", ""),
    ("sense,door,true", "ok"),
    ("sense,door,yes", "refused,7"),
    ("window,door,0,60", "refused,18"),
    ("clock,10079", "ok"),
    ("clock,10080", "refused,18"),
    ("clock,1000000", "refused,7"),
];

const ROWAN_HOUSE: &[u8] = include_bytes!("../../examples/rowan-house.csv");

/// What a console answers to each of the records, one after another.
fn answers_of(console: &mut Console, records: &[&str]) -> Vec<String> {
    let answer_of = |record: &&str| {
        let text = format!("{record}\r\n");
        let judged = console.read_text(text.as_bytes()).expect("short enough");
        assert_eq!(judged.len(), 1, "one record: {record:?}");
        judged[0].answer.words().unwrap_or_default()
    };
    records.iter().map(answer_of).collect()
}

fn assert_answers(console: &mut Console, expected: &[(&str, &str)]) {
    for &(record, answer) in expected {
        assert_eq!(answers_of(console, &[record]), [answer], "{record:?}");
    }
}

fn text_of(records: &[(&str, &str)]) -> Vec<u8> {
    records.iter().flat_map(|(record, _)| format!("{record}\r\n").into_bytes()).collect()
}

fn lines_of(records: &[(&str, &str)]) -> Vec<u8> {
    let answered = records.iter().filter(|(_, answer)| !answer.is_empty());
    answered.flat_map(|(_, answer)| format!("{answer}\r\n").into_bytes()).collect()
}

fn rowan_house() -> Console {
    let mut console = Console::default();
    let judged = console.read_text(ROWAN_HOUSE).expect("short enough");
    assert_eq!(judged.len(), 45);
    console
}

#[test]
fn the_example_tables_of_the_format() {
    let mut console = Console::default();
    assert_answers(&mut console, &FIRST_HOUSE);
    assert_answers(&mut console, &MORE_RECORDS);
}

#[test]
fn the_example_tables_as_one_text() {
    let all: Vec<(&str, &str)> = FIRST_HOUSE.iter().chain(&MORE_RECORDS).copied().collect();
    assert_eq!(answers(&text_of(&FIRST_HOUSE)), lines_of(&FIRST_HOUSE));
    assert_eq!(answers(&text_of(&all)), lines_of(&all));
}

#[test]
fn lines_without_cr_are_one_fault() {
    let text = text_of(&FIRST_HOUSE);
    let without_cr: Vec<u8> = text.into_iter().filter(|&byte| byte != b'\r').collect();
    assert_eq!(answers(&without_cr), b"refused,4\r\n");
}

/// The table of faults: each text's answers, and the place of its first fault.
#[test]
fn texts_with_faults() {
    let cases: [(&str, usize, &str); 10] = [
        ("U,bo\"b\r\nR,r", 4, "refused,4\r\n"),
        ("U,\"bob\"x\r\nR,r", 7, "refused,4\r\n"),
        ("U, \"bob\"\r\nR,r", 3, "refused,4\r\n"),
        ("U,bob\nR,r\r\nD,d", 5, "refused,4\r\n"),
        ("U,bob\rR,r\r\nD,d", 5, "refused,4\r\n"),
        ("U,a\r\r\nR,r", 3, "refused,4\r\n"),
        ("U,a\r", 3, "refused,4\r\n"),
        ("U,\"b\r\nR,r", 9, "refused,4\r\n"),
        ("U,\"a\r\nb\"c\r\nR,r", 8, "refused,4\r\n"),
        ("U,a\"b\r\nc\",d", 3, "refused,4\r\nrefused,4\r\n"),
    ];
    for (text, place, lines) in cases {
        assert_eq!(judged(text.as_bytes())[0].place, Some(place), "{text:?}");
        assert_eq!(answers(text.as_bytes()), lines.as_bytes(), "{text:?}");
    }
    assert_eq!(judged(b"U,a\"b\r\nc\",d")[1].place, Some(8));
}

#[test]
fn the_record_behind_a_fault_is_done_or_left_out() {
    let mut console = Console::default();
    let text = b"U,bob\nR,r\r\nD,d\r\nD,d\r\nR,r\r\nR,r";
    let judged = console.read_text(text).expect("short enough");
    let words: Vec<String> =
        judged.iter().map(|record| record.answer.words().unwrap_or_default()).collect();
    assert_eq!(words, ["refused,4", "", "refused,8", "", "refused,8"]);
}

#[test]
fn refusals_of_records_have_the_first_byte_of_the_record_as_their_place() {
    let records = judged(b"U,a\r\n\"u\",a\r\n\r\nU,a");
    let places: Vec<Option<usize>> = records.iter().map(|record| record.place).collect();
    assert_eq!(places, [None, Some(5), Some(12), Some(14)]);
}

#[test]
fn texts_are_at_most_32_768_bytes() {
    assert_eq!(answers(b""), b"");
    assert_eq!(answers(&vec![b'x'; LONGEST_TEXT]), b"refused,5\r\n");
    assert_eq!(answers(&vec![b'x'; LONGEST_TEXT + 1]), b"refused,3\r\n");
    assert_eq!(answers(&vec![b'\n'; LONGEST_TEXT + 1]), b"refused,3\r\n");
}

#[test]
fn fields_above_the_fortieth_are_counted_and_judged_for_faults() {
    let record = |name: &str, fields: usize, last: &str| {
        let middle = ",e".repeat(fields - 3);
        format!("{name},e{middle},{last}\r\n")
    };
    let mut text = "EC,e\r\nER,e\r\n".to_string();
    text += &record("EA", 40, "e");
    text += &record("EA", 41, "e");
    text += &record("EA", 50, " ");
    text += &record("XX", 50, "e");
    text += &record("EA", 50, "e\"");
    assert_eq!(answers(text.as_bytes()), b"refused,6\r\nrefused,6\r\nrefused,5\r\nrefused,4\r\n");
}

#[test]
fn rowan_house_opens() {
    assert_eq!(answers(ROWAN_HOUSE), b"ok\r\n");
}

const CAM_IS_KID: [(&str, &str); 2] = [("start,0,cam", "ok"), ("activate,0,kid", "ok")];

#[test]
fn rowan_house_access() {
    let mut console = rowan_house();
    assert_answers(&mut console, &CAM_IS_KID);
    assert_answers(
        &mut console,
        &[("sense,evening,true", "ok"), ("checkAccess,0,tv,play", "deny")],
    );

    let mut console = rowan_house();
    assert_answers(&mut console, &CAM_IS_KID);
    assert_answers(
        &mut console,
        &[
            ("sense,evening,true", "ok"),
            ("assignRPDR,bob,games,kid_leisure,fun", "ok"),
            ("checkAccess,0,tv,play", "grant"),
            ("sense,evening,false", "ok"),
            ("checkAccess,0,tv,play", "deny"),
        ],
    );
}

#[test]
fn rowan_house_changes() {
    let cases: [&[(&str, &str)]; 7] = [
        &[
            ("assignRPDR,bob,games,kid_leisure,fun", "ok"),
            ("assignRPDR,bob,games,kid_leisure,fun", "refused,23"),
            ("revokeRPDR,bob,games,kid_leisure,fun", "ok"),
            ("assignRPDR,bob,games,kid_leisure,fun", "ok"),
        ],
        &[("assignRPDR,bob,games,kid_leisure,kitchen", "refused,21")],
        &[("assignRPDR,bob,games,kid_any,kitchen", "refused,25")],
        &[("assignRPDR,bob,games,parent_any,fun", "refused,22")],
        &[
            ("assignRPDR,bob,games,kid_any,fun", "ok"),
            ("assignPDR,bob,home,oven,heat,fun", "refused,25"),
        ],
        &[
            ("assignPDR,bob,home,oven,heat,fun", "ok"),
            ("assignRPDR,bob,games,kid_any,fun", "refused,25"),
        ],
        &[("assignRPDR,ann,games,kid_any,fun", "refused,19")],
    ];
    for case in cases {
        assert_answers(&mut rowan_house(), case);
    }
}

#[test]
fn rowan_house_opened_again() {
    let prohibited = [("RPDRA,kid_leisure,kitchen", ""), ("open,7", "refused,15")];
    let overlapping = [("R-AT-RP,home,kid_any", ""), ("open,7", "refused,14")];
    assert_answers(&mut rowan_house(), &prohibited);
    assert_answers(&mut rowan_house(), &overlapping);
}

#[test]
fn rowan_house_three_more() {
    assert_answers(
        &mut rowan_house(),
        &[("start,0,cam", "ok"), ("checkAccess,0,tv,heat", "refused,31")],
    );
    assert_answers(&mut rowan_house(), &[("start,15,cam", "ok"), ("start,16,cam", "refused,18")]);
    let mut console = rowan_house();
    for number in 0..61 {
        assert_answers(&mut console, &[(&format!("RP,more{number},kid"), "")]);
    }
    assert_answers(
        &mut console,
        &[("RP,one_more,kid", "refused,10"), ("RP,kid_any,kid", "refused,8")],
    );
}

#[test]
fn what_is_declared_after_the_opening_is_not_in_the_house() {
    let mut console = rowan_house();
    assert_answers(
        &mut console,
        &[
            ("U,dan", ""),
            ("RP,late,kid", ""),
            ("P,tv,heat", ""),
            ("start,0,dan", "refused,18"),
            ("assignRPDR,ann,games,late,fun", "refused,19"),
            ("assignRPDR,bob,games,late,fun", "refused,18"),
            ("assignPDR,bob,home,tv,heat,fun", "refused,18"),
            ("assignPDR,bob,home,oven,play,fun", "refused,9"),
            ("start,0,cam", "ok"),
            ("checkAccess,0,tv,heat", "refused,31"),
        ],
    );
}

#[test]
fn a_clock_window_activates_an_environment_role() {
    let mut console = rowan_house();
    for number in 1..17 {
        assert_answers(&mut console, &[(&format!("EC,c{number}"), "")]);
    }
    assert_answers(
        &mut console,
        &[
            ("EA,leisure,c16", ""),
            ("open,7", "ok"),
            ("assignRPDR,bob,games,kid_leisure,fun", "ok"),
            ("sense,c15,true", "ok"),
            ("sense,c16,true", "refused,18"),
            ("window,c15,0,60", "refused,18"),
            ("window,c16,10000,60", "ok"),
            ("start,0,cam", "ok"),
            ("activate,0,kid", "ok"),
            ("checkAccess,0,tv,play", "grant"),
            ("clock,60", "ok"),
            ("checkAccess,0,tv,play", "deny"),
            ("clock,10000", "ok"),
            ("checkAccess,0,tv,play", "grant"),
        ],
    );
}
