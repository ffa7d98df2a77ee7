//! Random but mostly sensible cases for the programs, the same for the same
//! seed.

mod ceilings;
mod damage;
mod draft;
mod escapes;
mod flow;
mod image;
mod letters;
mod log;
mod misses;
mod node;
mod particulars;
mod photos;
mod positions;
mod questions;
mod raw;
mod rng;
mod script;
pub mod texts;
mod utf8;
mod walks;

use rng::Rng;
use std::io::{self, Write};

/// So many lines for `keep`.
pub fn keep_lines(seed: u64, count: u64, output: impl Write) -> io::Result<()> {
    let mut log = log::Log::new(seed);
    write_lines(seed, count, output, || log.line())
}

/// So many lines for `probe`.
pub fn probe_lines(seed: u64, count: u64, output: impl Write) -> io::Result<()> {
    let mut script = script::Script::new(seed);
    write_lines(seed, count, output, || script.line())
}

/// So many lines for `probe` that read photos.
pub fn photo_lines(seed: u64, count: u64, output: impl Write) -> io::Result<()> {
    let mut photos = photos::Photos::new(seed);
    write_lines(seed, count, output, || photos.line())
}

/// So many lines for `probe` that try the check of UTF-8.
pub fn utf8_lines(seed: u64, count: u64, output: impl Write) -> io::Result<()> {
    let mut utf8 = utf8::Utf8::new(seed);
    write_lines(seed, count, output, || utf8.line())
}

/// So many texts for `probe` to read, each with a ceiling before it: two lines.
pub fn ceiling_lines(seed: u64, count: u64, output: impl Write) -> io::Result<()> {
    let mut rng = Rng::new(seed);
    write_lines(seed, count, output, || ceilings::pair(&mut rng))
}

/// So many lines for `probe` that read messages with a bad letter.
pub fn letter_lines(seed: u64, count: u64, output: impl Write) -> io::Result<()> {
    let mut letters = letters::Letters::new(seed);
    write_lines(seed, count, output, || letters.line())
}

/// So many lines for `probe` that read particulars.
pub fn particular_lines(seed: u64, count: u64, output: impl Write) -> io::Result<()> {
    let mut rng = Rng::new(seed);
    write_lines(seed, count, output, || positions::line(&mut rng))
}

/// So many lines for `json`.
pub fn json_lines(seed: u64, count: u64, output: impl Write) -> io::Result<()> {
    let mut rng = Rng::new(seed);
    write_lines(seed, count, output, || walks::line(&mut rng))
}

/// So many lines for `rules`.
pub fn rule_lines(seed: u64, count: u64, output: impl Write) -> io::Result<()> {
    let mut rng = Rng::new(seed);
    write_lines(seed, count, output, || questions::line(&mut rng))
}

/// Every fourth seed leaves out the last line feed.
fn write_lines(
    seed: u64,
    count: u64,
    mut output: impl Write,
    mut line: impl FnMut() -> Vec<u8>,
) -> io::Result<()> {
    for index in 1..=count {
        let bytes = line();
        output.write_all(&bytes)?;
        let left_out = index == count && seed % 4 == 3 && !bytes.is_empty();
        if !left_out {
            output.write_all(b"\n")?;
        }
    }
    output.flush()
}

#[cfg(test)]
mod tests {
    use super::*;
    use crate::count;
    use crate::fields;
    use crate::hex;
    use crate::json::{self, Value};
    use crate::json_lines::JsonLines;
    use crate::keep::Keep;
    use crate::lines::tests::written;
    use crate::lines::{Answerer, Lines};
    use crate::message::{self, Message, CEILING};
    use crate::probe::Probe;
    use crate::rules::Method;
    use crate::table;
    use std::collections::BTreeSet;

    /// What a generator puts into an output.
    fn made(put: impl FnOnce(&mut Vec<u8>) -> io::Result<()>) -> Vec<u8> {
        let mut lines = Vec::new();
        put(&mut lines).unwrap();
        lines
    }

    fn keep_log(seed: u64, count: u64) -> Vec<u8> {
        made(|out| keep_lines(seed, count, out))
    }

    fn probe_script(seed: u64, count: u64) -> Vec<u8> {
        made(|out| probe_lines(seed, count, out))
    }

    fn photo_script(seed: u64, count: u64) -> Vec<u8> {
        made(|out| photo_lines(seed, count, out))
    }

    fn utf8_script(seed: u64, count: u64) -> Vec<u8> {
        made(|out| utf8_lines(seed, count, out))
    }

    fn ceiling_script(seed: u64, count: u64) -> Vec<u8> {
        made(|out| ceiling_lines(seed, count, out))
    }

    fn letter_script(seed: u64, count: u64) -> Vec<u8> {
        made(|out| letter_lines(seed, count, out))
    }

    fn particular_script(seed: u64, count: u64) -> Vec<u8> {
        made(|out| particular_lines(seed, count, out))
    }

    fn json_script(seed: u64, count: u64) -> Vec<u8> {
        made(|out| json_lines(seed, count, out))
    }

    fn rule_script(seed: u64, count: u64) -> Vec<u8> {
        made(|out| rule_lines(seed, count, out))
    }

    #[test]
    fn the_same_seed_gives_the_same_lines() {
        assert_eq!(keep_log(5, 500), keep_log(5, 500));
        assert_eq!(probe_script(5, 500), probe_script(5, 500));
        assert_eq!(photo_script(5, 500), photo_script(5, 500));
        assert_eq!(utf8_script(5, 500), utf8_script(5, 500));
        assert_eq!(ceiling_script(5, 500), ceiling_script(5, 500));
        assert_eq!(letter_script(5, 500), letter_script(5, 500));
        assert_eq!(particular_script(5, 500), particular_script(5, 500));
        assert_eq!(json_script(5, 500), json_script(5, 500));
        assert_eq!(rule_script(5, 500), rule_script(5, 500));
        assert_ne!(photo_script(5, 500), photo_script(6, 500));
        assert_ne!(utf8_script(5, 500), utf8_script(6, 500));
        assert_ne!(ceiling_script(5, 500), ceiling_script(6, 500));
        assert_ne!(letter_script(5, 500), letter_script(6, 500));
        assert_ne!(particular_script(5, 500), particular_script(6, 500));
        assert_ne!(json_script(5, 500), json_script(6, 500));
        assert_ne!(rule_script(5, 500), rule_script(6, 500));
        assert_ne!(keep_log(5, 500), keep_log(6, 500));
        assert_ne!(probe_script(5, 500), probe_script(6, 500));
        assert!(keep_log(9, 700).starts_with(&keep_log(9, 300)));
    }

    #[test]
    fn there_are_as_many_lines_as_asked_for() {
        for seed in 0..8 {
            for text in [
                keep_log(seed, 300),
                probe_script(seed, 300),
                photo_script(seed, 300),
                utf8_script(seed, 300),
                ceiling_script(seed, 150),
                letter_script(seed, 300),
                particular_script(seed, 300),
                json_script(seed, 300),
                rule_script(seed, 300),
            ] {
                let mut lines = Lines::new(&text[..], 10);
                let mut count = 0;
                while lines.next().unwrap().is_some() {
                    count += 1;
                }
                assert_eq!(count, 300);
            }
        }
    }

    /// The lines that `count` prints with 0, or that no answer should have.
    fn never_reached(answers: &str) -> Vec<String> {
        let mut out = Vec::new();
        count::run(answers.as_bytes(), &mut out).unwrap();
        let text = String::from_utf8(out).unwrap();
        let odd = |line: &&str| line.trim_start().starts_with("0 ") || line.ends_with("other");
        text.lines().filter(odd).map(str::to_string).collect()
    }

    #[test]
    fn a_log_reaches_every_word_state_and_number() {
        let answers = written(Keep::new(), &keep_log(1, 15_000));
        assert_eq!(never_reached(&answers), Vec::<String>::new());
    }

    #[test]
    fn a_script_reaches_every_shape() {
        let answers = written(Probe::new(), &probe_script(1, 15_000));
        assert_eq!(never_reached(&answers), Vec::<String>::new());
    }

    /// Each of these beginnings has at least so many answers.
    fn reaches(answers: &str, wanted: &[(&str, usize)]) {
        for (start, least) in wanted {
            let begun = answers.lines().filter(|line| line.starts_with(start));
            let count = begun.count();
            assert!(count >= *least, "{start}: {count}");
        }
    }

    /// The answers to those lines of an input that are meant.
    fn answers_to(input: &[u8], answers: &str, meant: impl Fn(&[u8]) -> bool) -> String {
        let lines = input.split(|byte| *byte == b'\n').zip(answers.lines());
        let asked = lines.filter(|(line, _)| meant(line));
        let answers: Vec<&str> = asked.map(|(_, answer)| answer).collect();
        answers.join("\n")
    }

    /// Where there is no text, a reading is answered as an event is, and
    /// `count` cannot tell them apart; nor can it tell who wrote.
    #[test]
    fn commands_reach_every_answer_that_others_give_too() {
        let script = probe_script(1, 15_000);
        let answers = written(Probe::new(), &script);
        let no_text = ["no 2 ", "no 3 ", "no 4 ", "no 5 ", "no 11 "];
        for (command, wanted) in [
            ("read ", &no_text.map(|start| (start, 2))[..]),
            ("msg ", &no_text.map(|start| (start, 2))),
            (
                "text ",
                &[
                    ("ok ", 300),
                    ("ok 32768 ", 2),
                    ("no 9 ", 50),
                    ("no 33 ", 50),
                    ("no 39 ", 2),
                ],
            ),
        ] {
            let given = answers_to(&script, &answers, |line| {
                line.starts_with(command.as_bytes())
            });
            reaches(&given, wanted);
        }
    }

    /// The Call-ID of a message that can be read, as it stands there.
    fn spelled_call_id(message: &[u8]) -> Option<Vec<u8>> {
        match message::read(message, CEILING).answer {
            Ok(Message::Request(exchange) | Message::Response(exchange, _)) => {
                Some(exchange.values.call_id.to_vec())
            }
            _ => None,
        }
    }

    #[test]
    fn calls_are_opened_and_found_through_escapes() {
        let script = probe_script(1, 15_000);
        let answers = written(Probe::new(), &script);
        let escaped = answers_to(&script, &answers, |line| {
            let message = line.rsplit(|byte| *byte == b' ').next();
            let call_id = message.and_then(hex::decode);
            let call_id = call_id.and_then(|message| spelled_call_id(&message));
            line.starts_with(b"msg ") && call_id.is_some_and(|id| id.contains(&b'\\'))
        });
        reaches(
            &escaped,
            &[
                ("ok pass 1", 50),
                ("ok pass 3", 10),
                ("ok pass 4", 20),
                ("ok pass 5", 20),
                ("ok repeat", 5),
                ("no 21 ", 5),
                ("no 24 ", 10),
            ],
        );
    }

    #[test]
    fn texts_reach_every_row_of_the_walk_and_none() {
        let answers = written(JsonLines, &json_script(1, 5000));
        reaches(
            &answers,
            &[
                ("ok ", 500),
                ("no 4 ", 500),
                ("no 5 ", 50),
                ("no 11 ", 500),
                ("?", 10),
            ],
        );
    }

    #[test]
    fn texts_under_ceilings_reach_every_row() {
        let answers = written(Probe::new(), &ceiling_script(1, 4000));
        reaches(
            &answers,
            &[
                ("ok ", 200),
                ("no 2 ", 10),
                ("no 3 ", 10),
                ("no 4 ", 500),
                ("no 5 ", 100),
                ("no 6 ", 100),
                ("no 7 ", 50),
                ("no 8 ", 100),
                ("no 9 ", 100),
                ("no 10 ", 50),
                ("no 11 ", 800),
            ],
        );
    }

    #[test]
    fn photos_reach_their_rows() {
        let answers = written(Probe::new(), &photo_script(1, 4000));
        reaches(
            &answers,
            &[
                ("ok", 800),
                ("no 7 ", 50),
                ("no 8 ", 100),
                ("no 9 ", 500),
                ("no 10 ", 500),
            ],
        );
    }

    #[test]
    fn texts_that_try_utf8_reach_their_rows() {
        let answers = written(Probe::new(), &utf8_script(1, 4000));
        reaches(
            &answers,
            &[("no 3 ", 3400), ("no 4 ", 150), ("no 6 0", 150)],
        );
    }

    const PHOTO: &str = "message/vnd.net119.uri.image";

    /// The messages that the lines of a script read.
    fn messages_read(script: &[u8]) -> Vec<String> {
        messages_of(script, b"read ")
    }

    /// The messages of all lines of a command of one word.
    fn messages_of(script: &[u8], command: &[u8]) -> Vec<String> {
        let lines = script.split(|byte| *byte == b'\n');
        let words = lines.filter_map(|line| line.strip_prefix(command));
        let messages = words.filter_map(|word| String::from_utf8(hex::decode(word)?).ok());
        messages.collect()
    }

    /// The strings that stand as values of a name.
    fn values<'m>(message: &'m str, name: &str) -> Vec<&'m str> {
        let parts: Vec<&str> = message.split('"').collect();
        let named = parts
            .windows(3)
            .filter(|part| part[0] == name && part[1].trim() == ":");
        named.map(|part| part[2]).collect()
    }

    #[test]
    fn photos_take_turns() {
        let messages = messages_read(&photo_script(1, 1600));
        assert_eq!(messages.len(), 1600);
        for (turn, message) in messages.iter().enumerate() {
            let method = format!(" {}", Method::NAMES[turn % 8]);
            let (from, to) = match turn % 16 {
                0..=7 => (".caller", ".callee"),
                _ => (".callee", ".caller"),
            };
            assert_eq!(values(message, "Content-Type"), [PHOTO]);
            // Via's objects may have a CSeq too, which says no method.
            let cseqs = values(message, "CSeq");
            assert!(cseqs.iter().any(|cseq| cseq.ends_with(&method)));
            for (name, side) in [("From", from), ("To", to)] {
                assert!(matches!(values(message, name)[..], [one] if one.ends_with(side)));
            }
        }
    }

    #[test]
    fn a_script_has_photos_in_notifies() {
        let messages = messages_read(&probe_script(1, 15_000));
        let photos = messages.iter().filter(|message| {
            values(message, "Content-Type") == [PHOTO] && message.contains(" NOTIFY\"")
        });
        assert!(photos.count() >= 5);
    }

    /// The field whose value the place of 9 stands in, and how far from its start.
    fn place_of_9(message: &[u8]) -> Option<(usize, usize)> {
        let refusal = message::read(message, CEILING).answer.err()?;
        let text = json::parse(message, CEILING).ok()?;
        let members = text.outermost.array()?.get(1)?.object()?;
        let within = |value: &Value| (value.start..value.end).contains(&refusal.place);
        let member = members.iter().find(|member| within(&member.value))?;
        let field = fields::number_of(&member.name.text(message)?)?;
        (refusal.number == 9).then_some((field, refusal.place - member.value.start))
    }

    /// The fields come in turn, and their first bad letters stand everywhere.
    #[test]
    fn letters_reach_every_place() {
        let mut reached = misses::FIELDS.map(|_| BTreeSet::new());
        let messages = messages_read(&letter_script(1, 15_000));
        assert_eq!(messages.len(), 15_000);
        for (index, message) in messages.iter().enumerate() {
            let turn = index % misses::FIELDS.len();
            let (field, letter) = place_of_9(message.as_bytes()).unwrap();
            assert_eq!(field, misses::FIELDS[turn]);
            reached[turn].insert(letter);
        }
        // From the first byte to the quote behind the longest text that is good.
        for (reached, longest) in reached.iter().zip([19, 45, 45, 24, 64]) {
            let all = 0..=longest + 1;
            let missed: Vec<usize> = all.filter(|place| !reached.contains(place)).collect();
            assert_eq!(missed, []);
        }
    }

    #[test]
    fn a_script_has_bad_letters_in_each_field() {
        let messages = messages_read(&probe_script(1, 15_000));
        let places = messages.iter().filter_map(|m| place_of_9(m.as_bytes()));
        let letters: Vec<usize> = places
            .filter(|place| place.1 > 0)
            .map(|place| place.0)
            .collect();
        for field in misses::FIELDS {
            let count = letters.iter().filter(|letter| **letter == field).count();
            assert!(count >= 20, "{field}: {count}");
        }
    }

    #[test]
    fn particulars_reach_their_fields() {
        let script = particular_script(1, 4000);
        let answers = written(Probe::new(), &script);
        let located = answers_to(&script, &answers, |line| line.starts_with(b"positions "));
        reaches(
            &located,
            &[
                ("ok", 1000),
                ("ok home ", 100),
                ("ok -", 50),
                ("no 7 ", 10),
                ("no 8 ", 20),
                ("no 9 ", 1000),
                ("no 10 ", 50),
            ],
        );
        let messages = messages_of(&script, b"positions ");
        let places = messages.iter().filter_map(|m| place_of_9(m.as_bytes()));
        let fields: Vec<usize> = places.map(|(field, _)| field).collect();
        for wanted in [fields::BODY, fields::LOCATIONS, fields::CALLER] {
            let count = fields.iter().filter(|field| **field == wanted).count();
            assert!(count >= 200, "{wanted}: {count}");
        }
    }

    /// Whatever happens, a table that was well-formed stays so.
    #[test]
    fn tables_stay_well_formed() {
        let mut keep = Keep::new();
        for line in keep_log(2, 4000).split(|byte| *byte == b'\n') {
            keep.answer(line);
            assert!(table::well_formed(&keep.image));
        }
    }
}
