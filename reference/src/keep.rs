//! The program (01 Writing, last paragraph): a log of events in, an answer a
//! line out, on a table of 255 blank records.

use crate::keeper;
use crate::lines::Answerer;
use crate::message::{CEILING, MAX_LENGTH};
use crate::rules;
use crate::table;

/// The most digits of a time.
const MAX_DIGITS: usize = 20;

/// The table of a running program.
pub struct Keep {
    pub image: Vec<u8>,
}

impl Keep {
    pub fn new() -> Self {
        Keep {
            image: table::blank_of(table::MAX_RECORDS),
        }
    }

    /// The answer to an event, without the time before it.
    fn event(&mut self, now: u64, event: &[u8]) -> String {
        if event.len() > MAX_LENGTH {
            return "refused 2".into();
        }
        let answer = match event.strip_prefix(b"tick ") {
            Some(call_id) => keeper::tick_on_good_table(&mut self.image, now, call_id),
            None => keeper::message_on_good_table(&mut self.image, CEILING, now, event),
        };
        match answer {
            Ok(accepted) => format!("{} {}", accepted.word.name(), accepted.state),
            Err(refused) => format!("refused {}", refused.number),
        }
    }
}

impl Answerer for Keep {
    /// Enough of a line to see that what follows its time is too long: the
    /// longest time, its space, and one byte more than a message may have.
    const LIMIT: usize = MAX_DIGITS + 1 + MAX_LENGTH + 1;

    fn answer(&mut self, line: &[u8]) -> Option<Vec<u8>> {
        let Some((time, now, event)) = split_time(line) else {
            return Some(b"bad".to_vec());
        };
        Some([time, b" ", self.event(now, event).as_bytes()].concat())
    }

    fn answer_cut(&mut self, beginning: &[u8]) -> Option<Vec<u8>> {
        self.answer(beginning)
    }
}

/// A time of 1 to 20 digits below 2^64, as read and as a number, and what
/// follows its space.
fn split_time(line: &[u8]) -> Option<(&[u8], u64, &[u8])> {
    let space = line.iter().take(MAX_DIGITS + 1).position(|b| *b == b' ')?;
    let time = &line[..space];
    Some((time, rules::parse_decimal(time)?, &line[space + 1..]))
}

#[cfg(test)]
mod tests {
    use super::*;
    use crate::lines;
    use crate::samples::Sample;

    fn answers(log: &[u8]) -> String {
        lines::tests::written(Keep::new(), log)
    }

    #[test]
    fn the_first_example() {
        assert_eq!(answers(b"1000 tick A1.nx"), "1000 refused 20\n");
        assert_eq!(answers(b"1000 tick A1.nx\n"), "1000 refused 20\n");
        assert_eq!(answers(b""), "");
    }

    #[test]
    fn lines_without_a_time() {
        for line in [
            "",
            " ",
            "x",
            "1000",
            "1000\ttick A1",
            " 1000 tick A1",
            "-1 tick A1",
            "18446744073709551616 tick A1",
            "000000000000000000001 tick A1",
            "99999999999999999999 tick A1",
            "tick A1",
            "\r",
        ] {
            assert_eq!(answers(format!("{line}\n").as_bytes()), "bad\n", "{line}");
        }
    }

    #[test]
    fn times_are_echoed_as_read() {
        for time in ["0", "007", "18446744073709551615", "00000000000000000001"] {
            let answer = answers(format!("{time} tick A1").as_bytes());
            assert_eq!(answer, format!("{time} refused 20\n"));
        }
    }

    #[test]
    fn what_follows_the_time() {
        for (rest, number) in [
            ("", 2),
            (" ", 4),
            ("tick", 4),
            ("tick ", 9),
            ("tick A", 9),
            ("tick A1\r", 9),
            ("tick A\\u0031", 9),
            ("tick  A1", 9),
            ("Tick A1", 4),
            ("tick\tA1", 4),
            ("\u{feff}[]", 4),
            ("[]", 6),
            ("[]\r", 6),
        ] {
            let answer = answers(format!("5 {rest}\n").as_bytes());
            assert_eq!(answer, format!("5 refused {number}\n"), "{rest}");
        }
        assert_eq!(answers(b"5 \xff\n"), "5 refused 3\n");
    }

    #[test]
    fn lines_at_and_over_the_longest() {
        let message = Sample::ping().of_length(MAX_LENGTH).text();
        assert_eq!(
            answers(format!("5 {message}\n").as_bytes()),
            "5 refused 28\n"
        );
        let longer = Sample::ping().of_length(MAX_LENGTH + 1).text();
        assert_eq!(
            answers(format!("5 {longer}\n6 []").as_bytes()),
            "5 refused 2\n6 refused 6\n"
        );
        let time = "00000000000000000005";
        assert_eq!(
            answers(format!("{time} {message}").as_bytes()),
            format!("{time} refused 28\n")
        );
        assert_eq!(
            answers(format!("{time} {longer}").as_bytes()),
            format!("{time} refused 2\n")
        );
        let tick = |length: usize| format!("5 tick {}\n", "A".repeat(length - 5));
        assert_eq!(answers(tick(MAX_LENGTH).as_bytes()), "5 refused 9\n");
        assert_eq!(answers(tick(MAX_LENGTH + 1).as_bytes()), "5 refused 2\n");
        assert_eq!(answers(tick(300_000).as_bytes()), "5 refused 2\n");
        let untimed = "x".repeat(300_000);
        assert_eq!(
            answers(format!("{untimed}\n5 []").as_bytes()),
            "bad\n5 refused 6\n"
        );
    }

    #[test]
    fn values_at_and_over_the_ceiling() {
        for (text, number) in [
            (format!("[{}1", "1,".repeat(16_383)), 11),
            (format!("[{}1", "1,".repeat(16_382)), 4),
            (format!("[{}1]", "1,".repeat(16_382)), 6),
        ] {
            let answer = answers(format!("5 {text}\n").as_bytes());
            assert_eq!(answer, format!("5 refused {number}\n"));
        }
    }

    #[test]
    fn a_call_from_end_to_end() {
        let lines = [
            (1000, Sample::request("1 INVITE").text(), "pass 1"),
            (1000, Sample::request("1 INVITE").text(), "repeat 1"),
            (
                1100,
                Sample::response("1 INVITE", "100 Trying").text(),
                "pass 1",
            ),
            (
                1200,
                Sample::response("1 INVITE", "180 Ringing").text(),
                "pass 2",
            ),
            (
                1300,
                Sample::response("1 INVITE", "200 OK").text(),
                "pass 3",
            ),
            (1400, Sample::request("1 ACK").text(), "pass 4"),
            (1400, Sample::request("1 ACK").text(), "repeat 4"),
            (
                1500,
                Sample::request("1 MESSAGE").sent_by_callee().text(),
                "pass 4",
            ),
            (1600, Sample::request("2 MESSAGE").text(), "pass 4"),
            (1599, Sample::request("3 MESSAGE").text(), "refused 22"),
            (1700, "tick A1.nx".into(), "none 4"),
            (
                1800,
                Sample::request("2 BYE").sent_by_callee().text(),
                "pass 5",
            ),
            (
                1900,
                Sample::response("2 BYE", "200 OK").sent_by_callee().text(),
                "pass 5",
            ),
            (3_601_800, Sample::request("1 CALLBACK").text(), "pass 5"),
            (
                3_601_801,
                Sample::request("1 CALLBACK").text(),
                "refused 26",
            ),
            (3_601_800, "tick A1.nx".into(), "none 5"),
            (3_601_801, "tick A1.nx".into(), "freed 0"),
            (3_601_802, "tick A1.nx".into(), "refused 20"),
        ];
        let log: String = lines
            .iter()
            .map(|(time, rest, _)| format!("{time} {rest}\n"))
            .collect();
        let wanted: String = lines
            .iter()
            .map(|(time, _, answer)| format!("{time} {answer}\n"))
            .collect();
        assert_eq!(answers(log.as_bytes()), wanted);
    }

    #[test]
    fn the_256th_call_is_27() {
        let mut log = String::new();
        for index in 0..256 {
            let invite = Sample::request("1 INVITE").of_call(&format!("C{index}"));
            log += &format!("7 {}\n", invite.text());
        }
        let answers = answers(log.as_bytes());
        let lines: Vec<&str> = answers.lines().collect();
        assert!(lines[..255].iter().all(|line| *line == "7 pass 1"));
        assert_eq!(lines[255], "7 refused 27");
    }
}
