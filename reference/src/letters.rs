//! The first bad letter of a string (02 §12): the first after which no text that
//! its field allows can go on, found by trying to complete what stands before it.

use crate::escapes;
use crate::fields::*;
use crate::rules::{self, Method};

/// The place of the first bad letter among the spelled bytes of a field's string,
/// or their length where they only stop short; none for the fields that keep their
/// value's first byte. A letter of several bytes is bad by its first: all that is
/// allowed is ASCII.
pub fn first_bad(field: usize, spelled: &[u8]) -> Option<usize> {
    let allowed = Allowed::of(field)?;
    let mut text = Vec::new();
    let mut letters = escapes::letters(spelled);
    let bad = letters.find(|(_, letter)| !letter.put(&mut text) || !allowed.begins_with(&text));
    Some(bad.map_or(spelled.len(), |(place, _)| place))
}

/// What a field allows: its rule, and endings that suffice. Whatever begins a text
/// that keeps the rule becomes such a text by one of the endings or by the tail of
/// one, however short: none, if it is such a text already.
struct Allowed {
    rule: fn(&[u8]) -> bool,
    endings: Vec<&'static str>,
}

impl Allowed {
    fn of(field: usize) -> Option<Allowed> {
        let (rule, endings): (fn(&[u8]) -> bool, _) = match field {
            // Digits that begin a number are one, so that a space and any method may
            // follow; behind the space a method or the tail of one is missing.
            CSEQ => (
                |text| rules::parse_cseq(text).is_some(),
                [&["1 BYE"], &Method::NAMES[..]].concat(),
            ),
            // Letters that begin a User-ID are one. Those that begin a Fire-ID are one,
            // or become one by one or two more: they are too few, or end in `_`.
            TO | FROM => (
                |text| rules::parse_address(text).is_some(),
                vec!["net119:a@aa.caller", "net119:fire@aa.callee"],
            ),
            // A year that has begun may go on with 0s and a 1. The second digit of a month
            // or a day may be 1: 01, 11, 21; but that of a day that begins with 3 may be 0:
            // 30, which every month has that has such a day. All of a time and a zone may
            // go on with 0s.
            DATE => (
                rules::is_date,
                vec!["0001-01-01T00:00:00+0000", "0010-10-10T00:00:00+0000"],
            ),
            // Letters that begin a Call-ID are one, or become one by one or two more: they
            // are too few, or end in a mark.
            CALL_ID => (rules::is_call_id, vec!["AA"]),
            _ => return None,
        };
        Some(Allowed { rule, endings })
    }

    /// Is this the beginning of a text that keeps the rule?
    fn begins_with(&self, text: &[u8]) -> bool {
        let tails = |ending: &'static str| (0..=ending.len()).map(|at| &ending.as_bytes()[at..]);
        let mut tails = self.endings.iter().copied().flat_map(tails);
        tails.any(|tail| (self.rule)(&[text, tail].concat()))
    }
}

#[cfg(test)]
mod tests {
    use super::*;

    /// Texts with `|` before their first bad letter, or at their end where they
    /// only stop short.
    fn bad<T: AsRef<str>>(field: usize, marked: &[T]) {
        for marked in marked.iter().map(AsRef::as_ref) {
            let spelled = marked.replace('|', "");
            let found = first_bad(field, spelled.as_bytes());
            assert_eq!(found, marked.find('|'), "{field}: {marked}");
        }
    }

    #[test]
    fn numbers_of_cseqs() {
        bad(
            CSEQ,
            &[
                "|",
                "| 1 BYE",
                "|BYE",
                "|+1 BYE",
                "|-1 BYE",
                "|0",
                "|0 BYE",
                "|01 BYE",
                "1|",
                "10|",
                "1|BYE",
                "1|.0 BYE",
                "1|/",
                "1|:",
                "429496729|6 BYE",
                "429496729|9",
                "4294967294|",
                "4294967295|",
                "4294967295|0 BYE",
                "429496730|0 BYE",
                "500000000|0 BYE",
                "999999999|9999 BYE",
                "1844674407|3709551617 BYE",
            ],
        );
    }

    #[test]
    fn methods_of_cseqs() {
        bad(
            CSEQ,
            &[
                "1 |",
                "1 | BYE",
                "1 |bye",
                "1 |0",
                "1 |OPTIONS",
                "1 B|",
                "1 B|ye",
                "1 BY|",
                "1 BYE|S",
                "1 BYE| ",
                "1 BYE|BYE",
                "1 AC|",
                "1 AC|C",
                "1 ACK|K",
                "1 C|",
                "1 CA|",
                "1 CA|CK",
                "1 CAN|",
                "1 CAN|BACK",
                "1 CANCEL|L",
                "1 CAL|",
                "1 CAL|CEL",
                "1 CALLBAC|",
                "1 CALLBACK|S",
                "1 I|BYE",
                "1 INVIT|",
                "1 M|SSAGE",
                "1 MESSAG|",
                "1 N|ACK",
                "1 NOTIF|",
                "1 R|",
                "1 REFER| TO",
                "4294967295 |bye",
            ],
        );
    }

    #[test]
    fn addresses() {
        for field in [TO, FROM] {
            bad(
                field,
                &[
                    "|",
                    "|NET119:u1@kita.caller",
                    "| net119:u1@kita.caller",
                    "|u1@kita.caller",
                    "n|",
                    "net119|",
                    "net119|@",
                    "net11|8:u1@kita.caller",
                    "net119:|",
                    "net119:|@kita.caller",
                    "net119:u|",
                    "net119:u|_1@kita.caller",
                    "net119:u1|.caller",
                    "net119:u1@|",
                    "net119:u1@|@kita.caller",
                    "net119:u1@|.caller",
                    "net119:u1@|_kita.caller",
                    "net119:u1@|Kita.caller",
                    "net119:u1@k|",
                    "net119:u1@k|.caller",
                    "net119:u1@k_|",
                    "net119:u1@k_|.caller",
                    "net119:u1@k__k|",
                    "net119:u1@ki|-ta.caller",
                    "net119:u1@kita|",
                    "net119:u1@kita|@",
                    "net119:u1@kita_|.caller",
                    "net119:u1@kita.|",
                    "net119:u1@kita.|Caller",
                    "net119:u1@kita.calle|",
                    "net119:u1@kita.calle|e",
                    "net119:u1@kita.caller|s",
                    "net119:fire@x|",
                    "net119:fire@kita.calle|",
                    "net119:fire@kita.calle|s",
                    "net119:fire@kita.callee|s",
                    "net119:fire@kita.caller|.callee",
                    "net119:fir@kita.calle|e",
                    "net119:fires@kita.calle|e",
                    "net119:Fire@kita.calle|e",
                ],
            );
        }
    }

    #[test]
    fn addresses_at_their_longest() {
        let letters = |count: usize| "a".repeat(count);
        bad(
            TO,
            &[
                format!("net119:{}|", letters(15)),
                format!("net119:{}|a@kita.caller", letters(15)),
                format!("net119:{}@k|", letters(15)),
                format!("net119:u1@{}|", letters(15)),
                format!("net119:u1@{}|a.caller", letters(15)),
                format!("net119:u1@{}|_.caller", letters(15)),
                format!("net119:u1@{}|_.caller", letters(14)),
                format!("net119:fire@{}_|", letters(13)),
                format!("net119:fire@{}_|.callee", letters(13)),
                format!("net119:fire@{}_|_a.callee", letters(13)),
                format!("net119:fire@{}_a|a.callee", letters(13)),
                format!("net119:fire@{}.|", letters(15)),
            ],
        );
    }

    #[test]
    fn days() {
        bad(
            DATE,
            &[
                "|",
                "| 2023-01-01",
                "2|",
                "2|o23",
                "000|",
                "000|0-01-01T00:00:00+0000",
                "0001|",
                "9999|9",
                "2023|/01/01",
                "2023-|2",
                "2023-|-",
                "2023-0|",
                "2023-0|0-01",
                "2023-1|",
                "2023-1|3-01",
                "2023-12-|4",
                "2023-01-0|0T",
                "2023-01-3|",
                "2023-01-31|",
                "2023-01-3|2T",
                "2023-04-30|",
                "2023-04-3|1T",
                "2023-06-3|1T",
                "2023-09-3|1T",
                "2023-11-3|1T",
                "2023-02-2|",
                "2023-02-2|9T00:00:00+0000",
                "2023-02-|3",
                "2023-02-|30T",
                "2024-02-29|",
                "2024-02-|30T",
                "1900-02-2|9T",
                "2000-02-29|",
                "2100-02-2|9T",
                "0004-02-29|",
                "0100-02-2|9T",
                "0400-02-29|",
            ],
        );
    }

    #[test]
    fn times_and_zones() {
        bad(
            DATE,
            &[
                "2023-01-01|t00:00:00+0900",
                "2023-01-01| 00:00:00+0900",
                "2023-01-01T|",
                "2023-01-01T|3",
                "2023-01-01T2|4:00:00+0000",
                "2023-01-01T23|",
                "2023-01-01T23|.",
                "2023-01-01T23:|60:00+0000",
                "2023-01-01T23:59|",
                "2023-01-01T23:59:|60+0000",
                "2023-01-01T23:59:59|",
                "2023-01-01T23:59:59|Z",
                "2023-01-01T23:59:59|-0900",
                "2023-01-01T23:59:59+|2",
                "2023-01-01T23:59:59+1|500",
                "2023-01-01T23:59:59+14|",
                "2023-01-01T23:59:59+14|60",
                "2023-01-01T23:59:59+09|:00",
                "2023-01-01T23:59:59+090|",
                "2023-01-01T23:59:59+1459|0",
            ],
        );
    }

    #[test]
    fn call_ids() {
        bad(
            CALL_ID,
            &[
                "|", "|-A", "|.", "|_", "A|", "A.|", "A-|", "A|_1", "A|@1", "A1| ", "A..|",
            ],
        );
        let letters = |count: usize| "A".repeat(count);
        bad(
            CALL_ID,
            &[
                format!("{}-|", letters(62)),
                format!("{}.|-", letters(62)),
                format!("{}|.", letters(63)),
                format!("{}|-A", letters(63)),
                format!("{}|A", letters(64)),
                format!("{}|.", letters(64)),
                format!("{}|A", letters(64).replace("AAAA", "A-.A")),
            ],
        );
    }

    #[test]
    fn letters_in_other_letters() {
        bad(
            CSEQ,
            &[
                r"|\u0030 BYE",
                r"429496729|\u0036 BYE",
                r"1\u0020B|\u0079E",
                r"1 BYE|\ud800",
            ],
        );
        bad(
            TO,
            &[
                r"net119:\u0066ire@kita.calle\u0072|s",
                r"net119:u1@kita\u002ecalle|\u0065",
            ],
        );
        bad(
            DATE,
            &[
                r"2023-02-2|\u0039T",
                r"\u0032\u0030\u0032\u0033|",
                r"2023|\/",
            ],
        );
        bad(
            CALL_ID,
            &[
                r"A\u002e|",
                r"A|\u005f1",
                r"A|\/",
                r#"A|\""#,
                r"A|\\",
                r"A|\u0000",
                r"A|\u00e9",
                r"A|\ud83d\ude00",
                r"A|\ud83d\ud83d\ude00",
                r"A1|\ud800",
                r"|\udc00A1",
                r"A|\ud83d\u0041",
                r"A|_\ud800",
                "|é1",
                "A|é1",
                "A1|語",
                "A1|１",
                "A|\u{1f600}",
            ],
        );
        let escapes = |count: usize| r"\u0041".repeat(count);
        bad(
            CALL_ID,
            &[
                format!("{}|A", escapes(64)),
                format!(r"{}|\u002d", escapes(63)),
            ],
        );
    }

    #[test]
    fn no_letters_begin_a_text_of_each_field() {
        for field in 1..=5 {
            assert!(Allowed::of(field).unwrap().begins_with(b""));
        }
    }

    #[test]
    fn other_fields_have_no_bad_letter() {
        for field in 6..=26 {
            assert_eq!(first_bad(field, b"?"), None);
        }
    }

    /// How many allowed texts begin so and have at most so many parts more: all that
    /// there are, or those that are met where only what begins one is gone on with.
    /// What is met is there; so if they are as many, no beginning was missed.
    fn count(allowed: &Allowed, begun: &[u8], parts: &[&str], most: usize, all: bool) -> usize {
        let own = usize::from((allowed.rule)(begun));
        if most == 0 {
            return own;
        }
        let longer = parts.iter().map(|part| [begun, part.as_bytes()].concat());
        let goes_on = |text: &Vec<u8>| {
            let mut ends = begun.len() + 1..=text.len();
            all || ends.all(|end| allowed.begins_with(&text[..end]))
        };
        let counts = longer
            .filter(goes_on)
            .map(|text| count(allowed, &text, parts, most - 1, all));
        own + counts.sum::<usize>()
    }

    /// The same texts are met either way, at least so many.
    fn misses_none(field: usize, begun: &str, parts: &[&str], most: usize, least: usize) {
        let allowed = Allowed::of(field).unwrap();
        let met = count(&allowed, begun.as_bytes(), parts, most, false);
        let all = count(&allowed, begun.as_bytes(), parts, most, true);
        assert!(met == all && all >= least, "{begun}: {met} of {all}");
    }

    #[test]
    fn no_beginning_of_a_cseq_is_missed() {
        misses_none(CSEQ, "", &["0", "1", " ", "B", "Y", "E"], 7, 7);
        misses_none(CSEQ, "1 ", &["A", "C", "K", "L", "B", "N", "E"], 6, 2);
        let parts: Vec<&str> = [&["0", "4", "5", "6", " "], &Method::NAMES[..]].concat();
        misses_none(CSEQ, "42949672", &parts, 4, 100);
    }

    #[test]
    fn no_beginning_of_an_address_is_missed() {
        let thirteen = "a".repeat(13);
        let parts = [
            "net119:", "fire", "a", &thirteen, "_", "@", ".caller", ".callee",
        ];
        misses_none(TO, "", &parts, 6, 40);
        for head in ["net119:u@", "net119:fire@"] {
            misses_none(TO, head, &parts[2..], 6, 20);
            let tail = format!("{head}a_");
            misses_none(TO, &tail, &["a", ".", "c", "l", "e", "r"], 8, 1);
        }
    }

    #[test]
    fn no_beginning_of_a_call_id_is_missed() {
        for begun in ["".into(), "A".repeat(58), "A-".repeat(29)] {
            misses_none(CALL_ID, &begun, &["A", "z", "0", "-", "_"], 7, 1000);
        }
    }

    /// How many beginnings of dates have so many letters more. All that are counted
    /// are beginnings; so if they are as many as there are, none was missed.
    fn dates(begun: &str, more: usize) -> usize {
        let allowed = Allowed::of(DATE).unwrap();
        let mut beginnings = vec![begun.as_bytes().to_vec()];
        for _ in 0..more {
            let longer = beginnings.iter().flat_map(|text| {
                let letters = b"0123456789-T:+ ".iter();
                letters.map(|letter| [&text[..], &[*letter]].concat())
            });
            beginnings = longer.filter(|text| allowed.begins_with(text)).collect();
        }
        beginnings.len()
    }

    #[test]
    fn no_beginning_of_a_date_is_missed() {
        assert_eq!(dates("", 4), 9999);
        let years = [
            "0001", "1900", "2023", "2100", "0004", "0400", "2000", "2024",
        ];
        let days = years.map(|year| dates(&format!("{year}-"), 5));
        assert_eq!(days, [365, 365, 365, 365, 366, 366, 366, 366]);
        assert_eq!(dates("2024-02-29T", 8), 24 * 60 * 60);
        assert_eq!(dates("2024-02-29T23:59:59", 5), 15 * 60);
    }
}
