//! The JSON walk alone (01 Reading, rows 4 and 5, and 02 §9's 11): each line is
//! `CEILING HEX`, a ceiling of values and a text, answered `ok COUNT` or
//! `no N PLACE`. HEX may be `-` or empty for the text of no bytes; what is not
//! such a line is answered `?`. A text's length and its UTF-8 are not looked at.

use crate::hex;
use crate::json;
use crate::lines::Answerer;
use crate::probe::{self, MAX_LINE};

pub struct JsonLines;

impl Answerer for JsonLines {
    const LIMIT: usize = MAX_LINE;

    fn answer(&mut self, line: &[u8]) -> Option<Vec<u8>> {
        let space = line.iter().position(|byte| *byte == b' ')?;
        let ceiling = probe::ceiling_of(&line[..space])?;
        let bytes = match &line[space + 1..] {
            b"-" => Vec::new(),
            word => hex::decode_pairs(word)?,
        };
        let answer = match json::parse(&bytes, ceiling) {
            Ok(text) => format!("ok {}", text.count),
            Err(fault) => {
                let (number, place) = fault.row();
                format!("no {number} {place}")
            }
        };
        Some(answer.into())
    }
}

#[cfg(test)]
mod tests {
    use super::*;
    use crate::lines;

    fn answers(script: &str) -> Vec<String> {
        lines::tests::answers(JsonLines, script)
    }

    fn of(ceiling: u32, text: &[u8]) -> String {
        let mut line = format!("{ceiling} ").into_bytes();
        hex::encode(text, &mut line);
        String::from_utf8(JsonLines.answer(&line).unwrap()).unwrap()
    }

    #[test]
    fn every_row_of_the_walk() {
        for (ceiling, text, wanted) in [
            (1, "[]", "ok 1"),
            (9, " 0 ", "ok 1"),
            (9, "[01]", "no 4 2"),
            (9, "[", "no 4 1"),
            (9, "", "no 4 0"),
            (8, "[[[[[[[[]]]]]]]]", "ok 8"),
            (7, "[[[[[[[[]]]]]]]]", "no 11 7"),
            (8, "[[[[[[[[[]]]]]]]]]", "no 5 8"),
            (9, "[[[[[[[[1[", "no 4 9"),
            (1, "[tx", "no 11 1"),
            (2, "[tx", "no 4 2"),
            (0, " ", "no 4 1"),
            (u32::MAX, "{\"a\":1}", "ok 2"),
        ] {
            assert_eq!(of(ceiling, text.as_bytes()), wanted, "{text}");
        }
    }

    #[test]
    fn no_other_row() {
        assert_eq!(of(1, b"\"\xff\x80\xed\xa0\x80\""), "ok 1");
        assert_eq!(of(0, b"\xff"), "no 4 0");
        let long = [&[b' '; 32_768][..], b"[]"].concat();
        assert_eq!(of(1, &long), "ok 1");
        assert_eq!(of(0, &long), "no 11 32768");
        assert_eq!(of(1, &vec![b' '; 50_000]), "no 4 50000");
    }

    #[test]
    fn texts_of_no_bytes_and_lines_of_another_form() {
        assert!(answers("").is_empty());
        assert_eq!(answers("0 \n0 -\n1 5b5d"), ["no 4 0", "no 4 0", "ok 1"]);
        assert_eq!(answers("4294967295 30\n0001 30"), ["ok 1", "ok 1"]);
        for line in [
            "\n",
            "-",
            "5b5d",
            " 5b5d",
            "9",
            "9 5",
            "9 5B",
            "9 5b 5d",
            "9  5b5d",
            " 9 5b5d",
            "9 5b5d\r",
            "9 --",
            "9 5b-",
            "9 0x",
            "4294967296 5b5d",
            "-1 5b5d",
            "x 5b5d",
        ] {
            assert_eq!(answers(line), ["?"], "{line}");
        }
        let longest = format!("9 {}", "20".repeat(MAX_LINE / 2 - 1));
        let script = format!("{longest}\n{longest}2\n9 30");
        assert_eq!(answers(&script), ["no 4 84999", "?", "ok 1"]);
    }
}
