//! Compares two implementations of the routing table on random lists of calls, or writes such a list with its answers.

use compare::generate::Generator;
use compare::outcome::{Counts, Endings, outcome};
use compare::program::MALFORMED;
use compare::run::{self, Answered, Disagreement, Program};
use compare::shrink::shrink;
use std::process::ExitCode;
use std::time::{Duration, Instant};

const HELP: &str = "compare [OPTIONS] [FIRST] SECOND
compare [OPTIONS] --replay-out FILE [FIRST]

Feeds seeded random lists of calls to two commands, each started with --dump, and holds their answers and dumps against each other
line by line. Most of the calls that can be explained stand behind their explanation, and must answer as it says. FIRST is the `reference`
beside this program where it is not given. A command may have arguments, parted by spaces. Where FIRST answers 'Malformed', since a bucket
of the table is, the table's lines are passed over up to the next new table, and are not counted.
Exits with 0 where they agree on all calls, with 2 where it cannot run, and with 1 otherwise: after a disagreement, which is shrunk to its
fewest lines, and a command that ends before its answers are through is one, whatever the other does; where fewer calls or explanations
ran than were asked for; and, from 200,000 calls on, where an outcome of a call or an explanation, two slots that differ in some one byte
alone, a fault of the hours or a moment in or outside of them, or an ending of a pending by a call that can end it so, are not reached, or
an ending occurs less than once in 1,000 calls (from 2,000,000 on also where listings and explanations are not asked for all that they are
to be).

  --calls N          calls to compare (100,000) or to write (3,000); explanations are not counted
  --explanations N   explanations to compare, each with its call, at least (0)
  --seconds N        stop after N seconds; calls that have not run by then are a failure
  --seed N           the seed (1)
  --replay-out FILE  write a list of calls that reaches every outcome, with the answers of FIRST after '#= '

    compare --calls 200000 ../host/target/release/kbtable";

struct Options {
    calls: Option<u64>,
    explanations: u64,
    seconds: u64,
    seed: u64,
    replay: Option<String>,
    programs: Vec<Program>,
}

fn main() -> ExitCode {
    let options = match options() {
        Ok(Some(options)) => options,
        Ok(None) => {
            println!("{HELP}");
            return ExitCode::SUCCESS;
        }
        Err(message) => return cannot(&message),
    };
    let done = match (&options.replay, &options.programs[..]) {
        (Some(file), [first]) => replay(&options, first, file),
        (None, [first, second]) => compare(&options, &[first.clone(), second.clone()]),
        _ => Err("give one command to write a list, two to compare; see --help".to_string()),
    };
    match done {
        Ok(true) => ExitCode::SUCCESS,
        Ok(false) => ExitCode::FAILURE,
        Err(message) => cannot(&message),
    }
}

fn cannot(message: &str) -> ExitCode {
    eprintln!("compare: {message}");
    ExitCode::from(2)
}

fn options() -> Result<Option<Options>, String> {
    let mut options =
        Options { calls: None, explanations: 0, seconds: u64::MAX, seed: 1, replay: None, programs: Vec::new() };
    let mut arguments = std::env::args().skip(1);
    while let Some(argument) = arguments.next() {
        let mut following = || arguments.next().ok_or_else(|| format!("{argument} lacks its value"));
        let number = |word: String| word.parse().map_err(|_| format!("no number: {word:?}"));
        match argument.as_str() {
            "--help" | "-h" => return Ok(None),
            "--calls" => options.calls = Some(number(following()?)?),
            "--explanations" => options.explanations = number(following()?)?,
            "--seconds" => options.seconds = number(following()?)?,
            "--seed" => options.seed = number(following()?)?,
            "--replay-out" => options.replay = Some(following()?),
            option if option.starts_with('-') => return Err(format!("{option:?} is no option; see --help")),
            command => options.programs.push(Program(command.split(' ').map(str::to_string).collect())),
        }
    }
    let wanted = if options.replay.is_some() { 1 } else { 2 };
    if options.programs.len() == wanted - 1 {
        let beside = std::env::current_exe().map_err(|e| e.to_string())?.with_file_name("reference");
        options.programs.insert(0, Program(vec![beside.to_string_lossy().into_owned()]));
    }
    Ok(Some(options))
}

/// Calls to compare and calls to write, where no option says it.
const COMPARED: u64 = 100_000;
const REPLAYED: u64 = 3000;

/// Lists that are tried, at most, to write one that reaches every outcome.
const TRIED: u64 = 20_000;

/// Lines that are handed to a pair of programs at a time.
const BATCH: usize = 3000;

/// From so many calls on every outcome must be reached, and all that listings are to be asked for. By the counts of docs/MEASUREMENTS.md the
/// rarest outcome comes 6 times in so many calls, the rarest n 15 times.
const ALL_OUTCOMES: u64 = 200_000;
const ALL_ASKED: u64 = 2_000_000;

/// From as many calls as [`ALL_OUTCOMES`] says on, each ending of a pending occurs at least once in so many.
const CALLS_PER_ENDING: u64 = 1000;

/// Whether the programs agree, on as many calls as were asked for, and on every outcome where there are enough of them.
fn compare(options: &Options, programs: &[Program; 2]) -> Result<bool, String> {
    let start = Instant::now();
    let limit = Duration::from_secs(options.seconds);
    let wanted = options.calls.unwrap_or(COMPARED);
    for program in programs {
        program.answers(&[])?;
    }
    let mut generator = Generator::explaining(options.seed);
    let (mut counts, mut explained, mut asked) = (Counts::outcomes(), Counts::explained(), Counts::asked());
    let (mut saved, mut slots, mut hours) = (Counts::saved(), Counts::slots(), Counts::hours());
    let mut endings = Endings::new();
    let (mut calls, mut explanations, mut passed) = (0, 0, 0);
    let mut shown = start;
    while (calls < wanted || explanations < options.explanations) && start.elapsed() < limit {
        let mut list = Vec::new();
        while list.len() < BATCH {
            list.extend(generator.list());
        }
        let disagreement = run::compare(programs, &list, |answered: &Answered| {
            let Answered { call, answer, .. } = answered;
            if answered.passed {
                passed += u64::from(is_call(call));
                endings.lost();
                return;
            }
            calls += u64::from(is_call(call));
            explanations += u64::from(answered.explained);
            counts.add_outcome(call, answer);
            explained.add_outcome(call, answer);
            saved.add_outcome(call, answer);
            asked.add_asked(call, answer);
            slots.add_slots(call, answer, answered.before);
            hours.add_hours(call, answer, answered.before);
            endings.add(call, answer, answered.after);
        })?;
        if let Some(disagreement) = disagreement {
            println!("seed {}: disagreement after {calls} calls", options.seed);
            report(programs, &list, &disagreement)?;
            return Ok(false);
        }
        if shown.elapsed() > Duration::from_secs(5) {
            shown = Instant::now();
            let rate = calls as f64 / start.elapsed().as_secs_f64();
            let to_go = (wanted.saturating_sub(calls), options.explanations.saturating_sub(explanations));
            eprintln!("{calls} calls, {rate:.0} a second, {} to go, and {} explanations", to_go.0, to_go.1);
        }
    }
    print_counts(&counts);
    println!("Explained, by answer and reason with the number of its keys:");
    print_counts(&explained);
    println!("Tables written and read:");
    print_counts(&saved);
    println!("Asked of the listings, and of explanations:");
    print_counts(&asked);
    println!("Slots at equal addresses, by how they differ (byte 0 is the last):");
    print_counts(&slots);
    println!("Hours, by call: what breaks question 10, alone; or the key before the call, and when it is made:");
    print_counts(&hours);
    println!("Pendings ended, by call:");
    print_counts(&endings.by_call);
    let totals = endings.totals();
    let ended: Vec<String> = totals.iter().map(|(ending, count)| format!("{ending} {count}")).collect();
    println!("Pendings ended, in all: {}", ended.join(", "));
    println!("Passed over, on tables with a malformed bucket: {passed} calls");
    let (seed, seconds) = (options.seed, start.elapsed().as_secs_f64());
    let missing = |counts: &Counts, from| if wanted < from { 0 } else { counts.rare(1).len() };
    let missing = missing(&counts, ALL_OUTCOMES)
        + missing(&explained, ALL_OUTCOMES)
        + missing(&saved, ALL_OUTCOMES)
        + missing(&slots, ALL_OUTCOMES)
        + missing(&hours, ALL_OUTCOMES)
        + missing(&endings.by_call, ALL_OUTCOMES)
        + missing(&asked, ALL_ASKED);
    let rare = totals.values().filter(|count| wanted >= ALL_OUTCOMES && **count < calls / CALLS_PER_ENDING).count();
    let agree = format!("{calls} calls agree, {explanations} of them as explained before, in {seconds:.1} s");
    if calls < wanted {
        println!("seed {seed}: FAILED: only {calls} of {wanted} calls ran, in {seconds:.1} s; they agree");
    } else if explanations < options.explanations {
        println!("seed {seed}: FAILED: {agree}, and {} were to be explained", options.explanations);
    } else if missing > 0 {
        println!("seed {seed}: FAILED: {agree}, and {missing} outcomes that must be reached are not");
    } else if rare > 0 {
        println!("seed {seed}: FAILED: {agree}, and {rare} endings occur less than once in {CALLS_PER_ENDING} calls");
    } else {
        println!("seed {seed}: {agree}");
    }
    Ok(calls >= wanted && explanations >= options.explanations && missing + rare == 0)
}

/// Shrinks a disagreement to one of its kind, and prints it.
fn report(programs: &[Program; 2], list: &[String], disagreement: &Disagreement) -> Result<(), String> {
    let mut trials = 0;
    let upto = &list[..list.len().min(disagreement.at + 1)];
    let mut parts = |part: &[String]| {
        trials += 1;
        if trials % 200 == 0 {
            eprintln!("shrinking: {trials} trials, {} lines", part.len());
        }
        let parted = run::compare(programs, part, |_| ());
        parted.is_ok_and(|parted| parted.is_some_and(|parted| parted.both_ended == disagreement.both_ended))
    };
    let lines = if parts(upto) { shrink(upto, parts) } else { shrink(list, parts) };
    let Some(disagreement) = run::compare(programs, &lines, |_| ())? else {
        return Err("the disagreement does not come back when the lines are run again".to_string());
    };
    println!("the fewest lines that show it:\n");
    for line in &lines {
        println!("{line}");
    }
    println!("\nfirst:  {}\nsecond: {}", disagreement.first, disagreement.second);
    Ok(())
}

/// Writes a list that reaches every outcome: for each outcome the fewest lines that reach it, then random lists. Each part begins
/// with a new table or bucket and ends with a dump. False where it does not reach them all, or has too few calls.
fn replay(options: &Options, program: &Program, file: &str) -> Result<bool, String> {
    let start = Instant::now();
    let limit = Duration::from_secs(options.seconds);
    let mut generator = Generator::explaining(options.seed);
    generator.small = true;
    let mut counts = Counts::all();
    let mut lines: Vec<String> = Vec::new();
    let wanted = options.calls.unwrap_or(REPLAYED);
    let mut calls = 0;
    let mut shown = start;
    for _ in 0..TRIED {
        if start.elapsed() >= limit {
            break;
        }
        let mut list = generator.list();
        let answers = program.answers(&list)?;
        let unseen =
            list.iter().zip(&answers).find_map(|(line, answer)| outcome(line, answer).filter(|o| counts.lacks(o)));
        if let Some(unseen) = unseen {
            list = fewest(program, &list, &answers, &unseen);
        } else if !counts.rare(1).is_empty() {
            continue;
        } else if calls >= wanted {
            break;
        }
        let answers = program.answers(&list)?;
        if answers.iter().any(|answer| answer == MALFORMED) {
            continue;
        }
        for (line, answer) in list.iter().zip(&answers) {
            counts.add_outcome(line, answer);
        }
        calls += count_calls(&list);
        list.push(if list[0].starts_with("b_") { "bdump" } else { "dump" }.to_string());
        lines.extend(list);
        if shown.elapsed() > Duration::from_secs(5) {
            shown = Instant::now();
            eprintln!("{} lines, {} outcomes to go", lines.len(), counts.rare(1).len());
        }
    }
    let answers = program.answers(&lines)?;
    let text: String = lines.iter().zip(answers).map(|(line, answer)| format!("{line}\n#= {answer}\n")).collect();
    std::fs::write(file, text).map_err(|error| format!("{file}: {error}"))?;
    print_counts(&counts);
    println!("seed {}: {calls} of {wanted} calls, {} lines, written to {file}", options.seed, lines.len());
    Ok(calls >= wanted && counts.rare(1).is_empty())
}

/// The fewest lines of a list, the first among them, whose last reaches an outcome.
fn fewest(program: &Program, list: &[String], answers: &[String], wanted: &(&'static str, String)) -> Vec<String> {
    let reaches = |(line, answer): (&String, &String)| outcome(line, answer).is_some_and(|o| o == *wanted);
    let last = list.iter().zip(answers).position(reaches).unwrap();
    if last == 0 {
        return list[..1].to_vec();
    }
    let whole = |part: &[String]| [&list[..1], part, &list[last..=last]].concat();
    let between = shrink(&list[1..last], |part| {
        let whole = whole(part);
        program.answers(&whole).is_ok_and(|answers| whole.iter().zip(&answers).next_back().is_some_and(reaches))
    });
    whole(&between)
}

/// A line that the Rust has a counterpart of: no raw line, no explanation, no table written or read.
fn is_call(line: &str) -> bool {
    let name = line.strip_prefix("! ").unwrap_or(line).split(' ').next().unwrap_or_default();
    !name.starts_with("raw_") && !["explain", "write", "read"].contains(&name)
}

fn count_calls(list: &[String]) -> u64 {
    list.iter().filter(|line| is_call(line)).count() as u64
}

fn print_counts(counts: &Counts) {
    for line in counts.lines() {
        println!("{line}");
    }
    let missing = counts.rare(1);
    if !missing.is_empty() {
        println!("not reached: {}", missing.join(", "));
    }
}
