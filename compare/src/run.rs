//! Runs commands on lists of calls and holds the answers of two against each other.

use crate::explained::{self, Asked};
use crate::program::MALFORMED;
use crate::text::{self, Line, TableCall};
use std::io::{BufRead, BufReader, Read, Write};
use std::process::{Child, ChildStdout, Command, ExitStatus, Stdio};
use std::thread::JoinHandle;

/// A program and its arguments.
#[derive(Clone, Debug)]
pub struct Program(pub Vec<String>);

/// Where two programs part: the line of the list, and what each wrote. Or where both give a call another answer than they explained.
#[derive(Clone, Debug)]
pub struct Disagreement {
    /// The index of the call in the list; the list's length where they part only at the end.
    pub at: usize,
    pub first: String,
    pub second: String,
    /// Both ended before their answers were through, or ended with a failure: they part from the list, and not from each other.
    pub both_ended: bool,
}

/// An answer that two programs agree on, or one that was passed over.
pub struct Answered<'a> {
    pub call: &'a str,
    /// The first program's.
    pub answer: &'a str,
    /// The two were not held against each other: the first does not answer on the table as it is.
    pub passed: bool,
    /// The call stands behind its explanation.
    pub explained: bool,
    /// The dump that stood before the call; nothing where there was none, or raw lines followed it.
    pub before: &'a [u8],
    /// The dump that follows it; nothing behind a raw line.
    pub after: &'a [u8],
}

/// A running program that is being fed a list.
struct Running {
    child: Child,
    output: BufReader<ChildStdout>,
    feeding: JoinHandle<()>,
    messages: JoinHandle<String>,
}

/// How a program ended, and what it wrote to standard error, behind a colon.
struct End {
    status: ExitStatus,
    said: String,
}

impl Program {
    fn start(&self, list: &[String], dump: bool) -> Result<Running, String> {
        let mut command = Command::new(&self.0[0]);
        command.args(&self.0[1..]).args(dump.then_some("--dump"));
        command.stdin(Stdio::piped()).stdout(Stdio::piped()).stderr(Stdio::piped());
        let mut child = command.spawn().map_err(|error| format!("{}: {error}", self.0[0]))?;
        let mut input = child.stdin.take().unwrap();
        let mut errors = child.stderr.take().unwrap();
        let output = BufReader::with_capacity(1 << 16, child.stdout.take().unwrap());
        let text = list.join("\n") + "\n";
        // A program that ends early stops reading; what it wrote tells.
        let feeding = std::thread::spawn(move || drop(input.write_all(text.as_bytes())));
        let messages = std::thread::spawn(move || {
            let mut bytes = Vec::new();
            // What was read up to an error is still worth showing.
            let _ = errors.read_to_end(&mut bytes);
            String::from_utf8_lossy(&bytes).trim_end().to_string()
        });
        Ok(Running { child, output, feeding, messages })
    }

    /// The answers to a list, without dumps.
    pub fn answers(&self, list: &[String]) -> Result<Vec<String>, String> {
        let mut running = self.start(list, false)?;
        let answers = running.output.by_ref().lines().collect::<Result<Vec<String>, _>>().map_err(|e| e.to_string())?;
        let end = running.end(false)?;
        if end.status.success() { Ok(answers) } else { Err(format!("{}: {}{}", self.0[0], end.status, end.said)) }
    }
}

impl Running {
    /// The next line, without its end; none at the end of the output.
    fn line<'a>(&mut self, line: &'a mut Vec<u8>) -> Result<Option<&'a [u8]>, String> {
        line.clear();
        let length = self.output.read_until(b'\n', line).map_err(|e| e.to_string())?;
        Ok((length > 0).then(|| line.strip_suffix(b"\n").unwrap_or(line)))
    }

    /// Ends the program; `early`, without waiting until it does so by itself.
    fn end(mut self, early: bool) -> Result<End, String> {
        if early {
            let _ = self.child.kill();
        }
        drop(self.output);
        let status = self.child.wait().map_err(|e| e.to_string())?;
        self.feeding.join().unwrap();
        let messages = self.messages.join().unwrap();
        let said = if messages.is_empty() { messages } else { format!(": {messages}") };
        Ok(End { status, said })
    }
}

/// Whether a line is about the table, and not about the bucket by itself.
fn of_table(line: &Line) -> bool {
    match line {
        Line::Table { .. } | Line::Dump => true,
        Line::Raw(raw) => !raw.is_alone(),
        Line::Bucket { .. } | Line::BucketDump => false,
    }
}

/// Feeds a list to both programs, with a dump after each call, and finds where they part, or where they end though answers are due. A call
/// that stands right behind its explanation must answer as explained. Where the first answers `Malformed`, what both say of the table is
/// passed over up to the next new one. `answered` sees each answer they agree on, and each that is passed over.
pub fn compare(
    programs: &[Program; 2],
    list: &[String],
    mut answered: impl FnMut(&Answered),
) -> Result<Option<Disagreement>, String> {
    let mut first = programs[0].start(list, true)?;
    let mut second = programs[1].start(list, true)?;
    let (mut one, mut two) = (Vec::new(), Vec::new());
    let mut explained: Option<(Asked, String)> = None;
    let (mut before, mut after) = (Vec::new(), Vec::new());
    let mut malformed = false;
    for (at, call) in list.iter().enumerate() {
        let Some(line) = text::parse(call).ok().flatten() else { continue };
        let is_new = matches!(line, Line::Table { call: TableCall::New { .. }, .. });
        let mut answer = None;
        after.clear();
        let mut passed = malformed && of_table(&line) && !is_new;
        for _ in 0..line.answer_lines() {
            let (a, b) = (first.line(&mut one)?, second.line(&mut two)?);
            // What the first answers decides: it is the one that knows no such table.
            passed |= answer.is_none() && of_table(&line) && a == Some(MALFORMED.as_bytes());
            let Some(both) = a.filter(|_| a == b || passed && b.is_some()) else {
                let both_ended = a.is_none() && b.is_none();
                let (first, second) = (shown(a, first)?, shown(b, second)?);
                return Ok(Some(Disagreement { at, first, second, both_ended }));
            };
            match answer {
                None => answer = Some(String::from_utf8_lossy(both).into_owned()),
                Some(_) => after.extend_from_slice(both),
            }
            // Of a new table that is refused only the answer is held; the malformed one stays.
            passed |= malformed && is_new && answer.as_deref() != Some("New");
        }
        let Some(answer) = answer else { continue };
        malformed = if is_new { malformed && answer != "New" } else { malformed || passed };
        if passed {
            answered(&Answered { call, answer: &answer, passed, explained: false, before: &[], after: &[] });
            (explained, before) = (None, Vec::new());
            continue;
        }
        let asked = explained.take().filter(|(asked, _)| asked.call == *call);
        if let Some((_, explanation)) = asked.as_ref().filter(|(a, e)| !explained::holds(a, e, &answer)) {
            let said = format!("explained as \"{explanation}\", and answered \"{answer}\"");
            return parted(at, &said, first, second);
        }
        answered(&Answered {
            call,
            answer: &answer,
            passed,
            explained: asked.is_some(),
            before: &before,
            after: &after,
        });
        explained = explained::asked(call).map(|asked| (asked, answer));
        // Behind a raw line, which has no dump, the bytes are such as no dump has shown.
        std::mem::swap(&mut before, &mut after);
    }
    let (a, b) = (first.line(&mut one)?, second.line(&mut two)?);
    if a != b {
        let (first, second) = (shown(a, first)?, shown(b, second)?);
        return Ok(Some(Disagreement { at: list.len(), first, second, both_ended: false }));
    }
    ended(first, second, list.len())
}

/// Both programs wrote the same, which cannot be.
fn parted(at: usize, said: &str, first: Running, second: Running) -> Result<Option<Disagreement>, String> {
    first.end(true)?;
    second.end(true)?;
    Ok(Some(Disagreement { at, first: said.to_string(), second: said.to_string(), both_ended: false }))
}

/// The programs have written all they had to, and must end well.
fn ended(first: Running, second: Running, at: usize) -> Result<Option<Disagreement>, String> {
    let (first, second) = (first.end(false)?, second.end(false)?);
    let shown = |end: &End| match end.status.success() {
        true => "(ended well)".to_string(),
        false => format!("(ended with a failure{})", end.said),
    };
    let failed = [&first, &second].map(|end| !end.status.success());
    let both_ended = failed == [true, true];
    let disagreement = || Disagreement { at, first: shown(&first), second: shown(&second), both_ended };
    Ok((failed != [false, false]).then(disagreement))
}

/// A program's line where the two part, or what it said as it ended. Ends the program.
fn shown(line: Option<&[u8]>, running: Running) -> Result<String, String> {
    let end = running.end(true)?;
    Ok(match line {
        Some(line) => String::from_utf8_lossy(line).into_owned(),
        None => format!("(no answer: the program ended{})", end.said),
    })
}
