//! A program that reads calls and writes answers: its options, the loop over the lines, dumps and raw lines. What a call does is the
//! implementation's.

use crate::layout::{AloneBytes, BucketBytesMut, TableBytes};
use crate::text::{self, BucketCall, Line, Raw, TableCall, Which, Write};
use std::io::{self, BufRead};
use std::process::ExitCode;

/// Why a call has no answer.
#[derive(Debug, PartialEq, Eq)]
pub enum Unanswered {
    /// It is refused: the number of the question.
    Refused(u8),
    /// A bucket of the table is malformed, and the implementation answers on tables only that are well formed throughout (02, slip 7).
    Malformed,
    /// It wrote what no call may write. This ends the program.
    Broken(String),
}

/// The answer of an implementation that does not answer, since a bucket of the table is malformed.
pub const MALFORMED: &str = "Malformed";

/// An implementation of the calls, with a table and a bucket by itself.
pub trait Implementation {
    /// Runs a call and writes its answer, or nothing where it is refused. `short`: on storage that is one byte short.
    fn table_call(&mut self, short: bool, call: &TableCall, out: &mut Vec<u8>) -> Result<(), Unanswered>;
    fn bucket_call(&mut self, short: bool, call: &BucketCall, out: &mut Vec<u8>) -> Result<(), Unanswered>;

    /// The bytes that raw lines write.
    fn table_bytes(&mut self) -> &mut TableBytes;
    fn bucket_bytes(&mut self) -> &mut AloneBytes;

    /// The lines of `dump` and `bdump`.
    fn dump(&self, out: &mut Vec<u8>);
    fn bucket_dump(&self, out: &mut Vec<u8>);
}

/// An option that prints a text and ends the program.
pub type Text = (&'static str, fn() -> String);

/// Runs a program of this name: answers the lines of standard input. A bad line ends it with a message; what came before stands.
pub fn run(name: &str, texts: &[Text], implementation: impl Implementation) -> ExitCode {
    let mut dumps = false;
    for argument in std::env::args().skip(1) {
        if argument == "--dump" {
            dumps = true;
        } else if let Some((_, text)) = texts.iter().find(|(option, _)| *option == argument) {
            // Whoever reads it may stop early.
            let _ = io::Write::write_all(&mut io::stdout(), text().as_bytes());
            return ExitCode::SUCCESS;
        } else {
            eprintln!("{name}: {argument:?} is no option; see {name} --help");
            return ExitCode::FAILURE;
        }
    }
    match answer(implementation, dumps) {
        Ok(()) => ExitCode::SUCCESS,
        Err(message) => {
            eprintln!("{name}: {message}");
            ExitCode::FAILURE
        }
    }
}

/// Answers each line; what was answered is written out before the program waits for more.
fn answer(mut implementation: impl Implementation, dumps: bool) -> Result<(), String> {
    let mut input = io::BufReader::with_capacity(1 << 16, io::stdin().lock());
    let mut output = io::stdout().lock();
    let mut answers = Vec::new();
    let mut write_out = |answers: &mut Vec<u8>| {
        let written = io::Write::write_all(&mut output, answers).and_then(|()| io::Write::flush(&mut output));
        answers.clear();
        written.map_err(|error| format!("standard output: {error}"))
    };
    let mut line = String::new();
    for number in 1.. {
        line.clear();
        let read = match input.read_line(&mut line) {
            Ok(0) => break,
            Ok(_) => text::parse(line.strip_suffix('\n').unwrap_or(&line)),
            Err(error) => Err(error.to_string()),
        };
        let answered = match read {
            Ok(Some(line)) => answer_line(&mut implementation, &line, dumps, &mut answers),
            Ok(None) => Ok(()),
            Err(message) => Err(message),
        };
        if answered.is_err() || answers.len() > 1 << 16 || input.buffer().is_empty() {
            write_out(&mut answers)?;
        }
        answered.map_err(|message| format!("line {number}: {message}"))?;
    }
    write_out(&mut answers)
}

/// Answers a line; with `dumps`, the dump that follows a call too.
pub fn answer_line(it: &mut impl Implementation, line: &Line, dumps: bool, out: &mut Vec<u8>) -> Result<(), String> {
    let start = out.len();
    let answered = match line {
        Line::Table { short, call } => it.table_call(*short, call, out),
        Line::Bucket { short, call } => it.bucket_call(*short, call, out),
        Line::Raw(raw) => {
            write_raw(it, raw)?;
            out.text("Raw");
            Ok(())
        }
        Line::Dump => {
            it.dump(out);
            return Ok(());
        }
        Line::BucketDump => {
            it.bucket_dump(out);
            return Ok(());
        }
    };
    match answered {
        Ok(()) => (),
        Err(Unanswered::Refused(question)) => {
            out.text("Refused ");
            out.number(question.into());
        }
        Err(Unanswered::Malformed) => out.text(MALFORMED),
        Err(Unanswered::Broken(message)) => {
            out.truncate(start);
            return Err(message);
        }
    }
    out.text("\n");
    match line {
        Line::Table { .. } if dumps => it.dump(out),
        Line::Bucket { .. } if dumps => it.bucket_dump(out),
        _ => (),
    }
    Ok(())
}

/// Writes a raw line's bytes.
fn write_raw(it: &mut impl Implementation, raw: &Raw) -> Result<(), String> {
    match raw {
        Raw::Node(which, node) => bucket_mut(it, *which).push_node(node),
        Raw::FirstConnected(which, place) => {
            bucket_mut(it, *which).set_first_connected(*place);
            Ok(())
        }
        Raw::Pending(which, node, deadline) => {
            bucket_mut(it, *which).set_pending(node, *deadline);
            Ok(())
        }
        Raw::Record(record) => it.table_bytes().push_record(record),
        Raw::Byte(offset, byte) => it.table_bytes().set_byte(*offset, *byte),
    }
}

fn bucket_mut(it: &mut impl Implementation, which: Which) -> BucketBytesMut<'_> {
    match which {
        Which::Index(i) => it.table_bytes().bucket_mut(i),
        Which::Itself => it.bucket_bytes().bucket_mut(),
    }
}
