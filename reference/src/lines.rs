//! Lines of an input of any length in constant memory: split at line feeds
//! only, and a line longer than the limit is stepped over, not stored. And the
//! run of a program that answers them.

use std::io::{self, BufRead, Write};

/// A program that answers lines, one after the other.
pub trait Answerer {
    /// How many bytes of a line it sees.
    const LIMIT: usize;

    /// The answer to a line; none is written `?`.
    fn answer(&mut self, line: &[u8]) -> Option<Vec<u8>>;

    /// The same for a line that goes on past the limit.
    fn answer_cut(&mut self, _beginning: &[u8]) -> Option<Vec<u8>> {
        None
    }
}

/// Answers every line of `input` on `output`.
pub fn run<P: Answerer>(
    mut program: P,
    input: impl BufRead,
    mut output: impl Write,
) -> io::Result<()> {
    let mut lines = Lines::new(input, P::LIMIT);
    while let Some(line) = lines.next()? {
        let answer = match line.cut {
            true => program.answer_cut(line.bytes),
            false => program.answer(line.bytes),
        };
        output.write_all(answer.as_deref().unwrap_or(b"?"))?;
        output.write_all(b"\n")?;
    }
    output.flush()
}

/// A line without its line feed.
pub struct Line<'b> {
    /// The line, or its first bytes up to the limit.
    pub bytes: &'b [u8],
    /// Did the line go on past the limit?
    pub cut: bool,
}

pub struct Lines<R> {
    input: R,
    limit: usize,
    buffer: Vec<u8>,
}

impl<R: BufRead> Lines<R> {
    pub fn new(input: R, limit: usize) -> Self {
        Lines {
            input,
            limit,
            buffer: Vec::new(),
        }
    }

    /// The next line; none at the end of the input. The last line may lack
    /// its line feed, and nothing after the last line feed is no line.
    pub fn next(&mut self) -> io::Result<Option<Line<'_>>> {
        self.buffer.clear();
        let mut cut = false;
        let mut seen_any = false;
        loop {
            let chunk = self.input.fill_buf()?;
            if chunk.is_empty() {
                break;
            }
            seen_any = true;
            let feed = chunk.iter().position(|byte| *byte == b'\n');
            let part = &chunk[..feed.unwrap_or(chunk.len())];
            let room = self.limit - self.buffer.len();
            cut |= part.len() > room;
            self.buffer.extend_from_slice(&part[..part.len().min(room)]);
            let used = part.len() + usize::from(feed.is_some());
            self.input.consume(used);
            if feed.is_some() {
                break;
            }
        }
        let line = Line {
            bytes: &self.buffer,
            cut,
        };
        Ok(seen_any.then_some(line))
    }
}

#[cfg(test)]
pub mod tests {
    use super::*;
    use std::io::BufReader;

    /// What a program writes on this input.
    pub fn written(program: impl Answerer, input: &[u8]) -> String {
        let mut out = Vec::new();
        run(program, input, &mut out).unwrap();
        String::from_utf8(out).unwrap()
    }

    /// Its answers one by one.
    pub fn answers(program: impl Answerer, input: &str) -> Vec<String> {
        let text = written(program, input.as_bytes());
        text.lines().map(str::to_string).collect()
    }

    fn split(input: &str, limit: usize, capacity: usize) -> Vec<(String, bool)> {
        let mut lines = Lines::new(BufReader::with_capacity(capacity, input.as_bytes()), limit);
        let mut all = Vec::new();
        while let Some(line) = lines.next().unwrap() {
            all.push((String::from_utf8(line.bytes.to_vec()).unwrap(), line.cut));
        }
        all
    }

    #[test]
    fn does_not_mind_where_the_input_is_cut() {
        for capacity in 1..12 {
            let lines = split("ab\n\ncdefg\r\nhi", 4, capacity);
            let wanted = [("ab", false), ("", false), ("cdef", true), ("hi", false)];
            assert_eq!(lines.len(), 4);
            for (line, (text, cut)) in lines.iter().zip(wanted) {
                assert_eq!((line.0.as_str(), line.1), (text, cut));
            }
        }
    }

    /// Answers a line backwards, but for one that begins with a space.
    struct Backwards;

    impl Answerer for Backwards {
        const LIMIT: usize = 3;

        fn answer(&mut self, line: &[u8]) -> Option<Vec<u8>> {
            let backwards = line.iter().rev().copied().collect();
            (!line.starts_with(b" ")).then_some(backwards)
        }
    }

    /// The same, and a beginning is as good as a line.
    struct Beginnings;

    impl Answerer for Beginnings {
        const LIMIT: usize = Backwards::LIMIT;

        fn answer(&mut self, line: &[u8]) -> Option<Vec<u8>> {
            Backwards.answer(line)
        }

        fn answer_cut(&mut self, beginning: &[u8]) -> Option<Vec<u8>> {
            self.answer(beginning)
        }
    }

    #[test]
    fn answers_every_line() {
        let text = |input: &str| written(Backwards, input.as_bytes());
        assert_eq!(text(""), "");
        assert_eq!(text("\n"), "\n");
        assert_eq!(text("ab\n\nabcd\nabc"), "ba\n\n?\ncba\n");
        assert_eq!(text(" a\nb \n"), "?\n b\n");
        assert_eq!(written(Beginnings, b"abcd\n abc\nabc"), "cba\n?\ncba\n");
        assert_eq!(answers(Backwards, "ab\n\n c"), ["ba", "", "?"]);
    }

    #[test]
    fn ends_of_input() {
        assert!(split("", 4, 8).is_empty());
        assert_eq!(split("\n", 4, 8).len(), 1);
        assert_eq!(split("a\n", 4, 8).len(), 1);
        assert_eq!(split("a\n\n", 4, 8).len(), 2);
        assert_eq!(split("abcd", 4, 8), [("abcd".to_string(), false)]);
        assert_eq!(split("abcde", 4, 8), [("abcd".to_string(), true)]);
    }
}
