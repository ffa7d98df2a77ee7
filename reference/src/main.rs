//! An independent reading of the NET119 call rules: the same logs and the same
//! probe lines as the program it is held against, single rules and the JSON walk
//! by themselves, and cases for all of them.

mod call;
mod count;
mod escapes;
mod fields;
mod gen;
mod hex;
mod json;
mod json_lines;
mod keep;
mod keeper;
mod letters;
mod lines;
mod message;
mod particulars;
mod probe;
mod rule_lines;
mod rules;
mod table;
mod utf8;
mod writing;

#[cfg(test)]
mod marks;
#[cfg(test)]
mod samples;

use json_lines::JsonLines;
use keep::Keep;
use probe::Probe;
use rule_lines::RuleLines;
use std::ffi::OsString;
use std::io::{self, BufReader, BufWriter, ErrorKind};
use std::process::ExitCode;

const USAGE: &str = "usage: reference keep | probe | json | rules | count
       reference gen keep SEED COUNT
       reference gen probe SEED COUNT
       reference gen photos SEED COUNT
       reference gen utf8 SEED COUNT
       reference gen ceilings SEED COUNT (two lines each)
       reference gen letters SEED COUNT
       reference gen particulars SEED COUNT
       reference gen json SEED COUNT
       reference gen rules SEED COUNT";

/// Bytes that input and output are buffered by.
const BUFFER: usize = 1 << 16;

fn main() -> ExitCode {
    let arguments: Vec<OsString> = std::env::args_os().skip(1).collect();
    let words: Vec<&str> = arguments.iter().filter_map(|word| word.to_str()).collect();
    if words.len() != arguments.len() {
        return usage();
    }
    let input = BufReader::with_capacity(BUFFER, io::stdin().lock());
    let output = BufWriter::with_capacity(BUFFER, io::stdout().lock());
    let result = match words[..] {
        ["keep"] => lines::run(Keep::new(), input, output),
        ["probe"] => lines::run(Probe::new(), input, output),
        ["json"] => lines::run(JsonLines, input, output),
        ["rules"] => lines::run(RuleLines, input, output),
        ["count"] => count::run(input, output),
        ["gen", kind, seed, count] => match (kind, seed.parse(), count.parse()) {
            ("keep", Ok(seed), Ok(count)) => gen::keep_lines(seed, count, output),
            ("probe", Ok(seed), Ok(count)) => gen::probe_lines(seed, count, output),
            ("photos", Ok(seed), Ok(count)) => gen::photo_lines(seed, count, output),
            ("utf8", Ok(seed), Ok(count)) => gen::utf8_lines(seed, count, output),
            ("ceilings", Ok(seed), Ok(count)) => gen::ceiling_lines(seed, count, output),
            ("letters", Ok(seed), Ok(count)) => gen::letter_lines(seed, count, output),
            ("particulars", Ok(seed), Ok(count)) => gen::particular_lines(seed, count, output),
            ("json", Ok(seed), Ok(count)) => gen::json_lines(seed, count, output),
            ("rules", Ok(seed), Ok(count)) => gen::rule_lines(seed, count, output),
            _ => return usage(),
        },
        _ => return usage(),
    };
    match result {
        Ok(()) => ExitCode::SUCCESS,
        // Whoever read our output has seen enough.
        Err(error) if error.kind() == ErrorKind::BrokenPipe => ExitCode::SUCCESS,
        Err(error) => {
            eprintln!("reference: {error}");
            ExitCode::FAILURE
        }
    }
}

fn usage() -> ExitCode {
    eprintln!("{USAGE}");
    ExitCode::from(2)
}
