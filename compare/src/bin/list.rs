//! Writes a list of calls with the answers of the routing table of sigp/discv5, as records of 128 bytes.

use std::process::ExitCode;

#[cfg(not(reference_source))]
fn main() -> ExitCode {
    eprintln!(
        "list: built without the source of sigp/discv5; set DISCV5_SRC to the folder of kbucket.rs and build again"
    );
    ExitCode::from(2)
}

#[cfg(reference_source)]
fn main() -> ExitCode {
    match list::run() {
        Ok(()) => ExitCode::SUCCESS,
        Err(message) => {
            eprintln!("list: {message}");
            ExitCode::from(2)
        }
    }
}

#[cfg(reference_source)]
mod list {
    use compare::driver::Driver;
    use compare::generate::{Generator, Random};
    use compare::layout::{KEY, PADDING_AT, RECORDS_AT};
    use compare::outcome::{Counts, outcome};
    use compare::program::MALFORMED;
    use compare::record::{self, ANSWER, ANSWERING};
    use compare::shrink::shrink;
    use compare::text::Slot;

    const HELP: &str = "list [--calls N] [--seed N] FILE

Runs calls on the routing table of sigp/discv5 and writes each as a record with its answer (src/record.rs): fixed lines, for each
outcome that they lack the fewest lines of a random list that reach it, then random lists up to N calls (3,500). Fails where an outcome is
missing.

    list ../crates/replay/stdin";

    /// Random lists that are tried, at most.
    const TRIED: u64 = 20_000;

    /// Raw lines of a random list that is written whole, at most.
    const RAW: usize = 8;

    type Outcome = (&'static str, String);

    pub fn run() -> Result<(), String> {
        let (mut calls, mut seed, mut file) = (3500, 1, None);
        let mut arguments = std::env::args().skip(1);
        while let Some(argument) = arguments.next() {
            let mut number =
                || arguments.next().and_then(|n| n.parse().ok()).ok_or(format!("{argument} lacks its number"));
            match argument.as_str() {
                "--help" | "-h" => {
                    println!("{HELP}");
                    return Ok(());
                }
                "--calls" => calls = number()?,
                "--seed" => seed = number()?,
                option if option.starts_with('-') => return Err(format!("{option:?} is no option; see --help")),
                _ => file = Some(argument),
            }
        }
        write(calls, seed, &file.ok_or("no file; see --help")?)
    }

    fn write(calls: u64, seed: u64, file: &str) -> Result<(), String> {
        let mut counts = Counts::outcomes();
        let mut lines = fixed();
        add(&mut counts, &lines, &answers(&lines)?);
        let mut generator = Generator::new(seed);
        generator.small = true;
        let mut random = Random::new(seed ^ 1);
        for _ in 0..TRIED {
            let mut list: Vec<String> =
                generator.list().iter().map(|line| with_answer(record::fitting(line), &mut random)).collect();
            let given = answers(&list)?;
            let unseen = list
                .iter()
                .zip(&given)
                .find_map(|(line, answer)| outcome(line, answer).filter(|outcome| counts.of(outcome) == 0));
            if let Some(unseen) = unseen {
                list = fewest(&list, &given, &unseen);
            } else if !missing(&counts).is_empty() || list.iter().filter(|l| l.starts_with("raw_")).count() > RAW {
                continue;
            } else if count_calls(&lines) >= calls {
                break;
            }
            let given = answers(&list)?;
            if given.iter().any(|answer| answer == MALFORMED) {
                continue;
            }
            add(&mut counts, &list, &given);
            lines.extend(list);
        }
        let missing = missing(&counts);
        if !missing.is_empty() {
            return Err(format!("not reached: {}", missing.join(", ")));
        }
        let mut driver = Driver::new();
        let mut records = Vec::new();
        for line in &lines {
            record::records(&mut driver, line, &mut records).map_err(|message| format!("{line}: {message}"))?;
        }
        std::fs::write(file, records.concat()).map_err(|error| format!("{file}: {error}"))?;
        for line in counts.lines() {
            println!("{line}");
        }
        println!("seed {seed}: {} calls, {} records, written to {file}", count_calls(&lines), records.len());
        Ok(())
    }

    /// The answers to a list, from a new table and a new bucket.
    fn answers(list: &[String]) -> Result<Vec<String>, String> {
        let mut driver = Driver::new();
        list.iter()
            .map(|line| record::answer(&mut driver, line).map_err(|message| format!("{line}: {message}")))
            .collect()
    }

    fn add(counts: &mut Counts, list: &[String], answers: &[String]) {
        for (line, answer) in list.iter().zip(answers) {
            counts.add_outcome(line, answer);
        }
    }

    fn count_calls(list: &[String]) -> u64 {
        list.iter().filter(|line| !line.starts_with("raw_")).count() as u64
    }

    /// The outcomes not reached: those of the text, and question 6 of an answer.
    fn missing(counts: &Counts) -> Vec<String> {
        let short = ANSWERING.iter().filter(|call| counts.of(&(call, "Refused 6".to_string())) == 0);
        counts.rare(1).into_iter().chain(short.map(|call| format!("{call} Refused 6"))).collect()
    }

    /// Sometimes an answer of another length.
    fn with_answer(line: String, random: &mut Random) -> String {
        if !ANSWERING.contains(&record::name(&line)) || random.below(30) != 0 {
            return line;
        }
        let length = [0, KEY, ANSWER - 1, ANSWER + 1, 100][random.below(5) as usize];
        format!("{line} answer={length}")
    }

    /// The fewest lines of a list, the first among them, whose last reaches an outcome.
    fn fewest(list: &[String], given: &[String], wanted: &Outcome) -> Vec<String> {
        let reaches = |(line, answer): (&String, &String)| outcome(line, answer).is_some_and(|o| o == *wanted);
        let last = list.iter().zip(given).position(reaches).unwrap();
        if last == 0 {
            return list[..1].to_vec();
        }
        let whole = |part: &[String]| [&list[..1], part, &list[last..=last]].concat();
        let between = shrink(&list[1..last], |part| {
            let whole = whole(part);
            answers(&whole).is_ok_and(|given| whole.iter().zip(&given).next_back().is_some_and(reaches))
        });
        whole(&between)
    }

    /// One line for each call of the table but `new`, about bucket 10.
    fn every() -> Vec<String> {
        [
            "update_node_status 0 :400 1 0",
            "update_node 0 :400 0:0.0.0.0:1 2",
            "insert_or_update 0 :400 0:0.0.0.0:1 1 0",
            "remove 0 :400",
            "entry 0 :400",
            "present_update :400 1 0",
            "pending_update :400 1 0",
            "absent_insert 0 :400 0:0.0.0.0:1 1 0",
            "iter 0 4096",
            "nodes_by_distances 0 11 16",
            "closest_keys 0 :400 16",
            "closest_values 0 :400 16",
            "closest_values_predicate 0 :400 0 16",
            "take_applied_pending",
        ]
        .map(str::to_string)
        .to_vec()
    }

    /// The calls of tests/endings.txt, each ending of a pending, and of tests/hours.txt; those that fit a record.
    fn of_tests() -> impl Iterator<Item = String> {
        const OTHER: [&str; 5] = ["#", "dump", "bdump", "explain ", "! explain "];
        let lines = [include_str!("../../tests/endings.txt"), include_str!("../../tests/hours.txt")];
        let is_call = |line: &&str| !line.is_empty() && !OTHER.iter().any(|other| line.starts_with(other));
        let lines = lines.into_iter().flat_map(str::lines).filter(is_call);
        lines.filter(|line| record::fitting(line) == *line).map(str::to_string)
    }

    /// Question 1 of each call; short answers; a queue filled by calls alone and question 8 of each call; question 2 of each call, and of the
    /// padding; a pending of each status before it is due, and when it is; slots that differ in one byte alone; each ending of a pending; hours.
    fn fixed() -> Vec<String> {
        let mut lines = vec!["new :0 0 16 0 0".to_string()];
        lines.extend(every().iter().map(|line| format!("! {line}")));
        let answering = every().into_iter().filter(|line| ANSWERING.contains(&record::name(line)));
        lines.extend(answering.map(|line| format!("{line} answer={}", ANSWER - 1)));
        for i in 0..16 {
            lines.push(format!("insert_or_update 0 :{:x} 0:0.0.0.0:{i} 0 0", 0x500 + i));
        }
        // The insert makes a pending, which the update of the key before applies; that key is disconnected, and will be evicted.
        lines.push("insert_or_update 0 :600 1:10.0.0.1:0 1 0".to_string());
        for i in 1..65 {
            lines.push(format!("update_node_status 0 :{:x} 0 2", 0x600 + i - 1));
            lines.push(format!("insert_or_update 0 :{:x} 1:10.0.{}.1:{i} 1 0", 0x600 + i, i / 8));
        }
        lines.extend(every());
        lines.push("raw_byte 42 2".to_string());
        lines.extend(every());
        lines.push("raw_byte 42 0".to_string());
        for at in PADDING_AT..RECORDS_AT {
            lines.extend([format!("raw_byte {at} 1"), "entry 0 :400".to_string(), format!("raw_byte {at} 0")]);
        }
        lines.extend(every());
        lines.push("new :0 60000 16 0 0".to_string());
        for i in 0..16 {
            lines.push(format!("insert_or_update 0 :{:x} 0:0.0.0.0:{i} 0 0", 0x500 + i));
        }
        lines.push("insert_or_update 100 :600 0:0.0.0.0:0 1 0".to_string());
        for (state, direction) in [(0, 0), (0, 1), (1, 0), (1, 1)] {
            lines.push(format!("pending_update :600 {state} {direction}"));
            lines.push("entry 60099 :600".to_string());
        }
        lines.push("entry 60100 :600".to_string());
        lines.push("b_new 10 16 0".to_string());
        lines.push(format!("b_insert 0 :1 0:0.0.0.0:1 0 0 answer={}", ANSWER - 1));
        lines.push("b_apply_pending 0 answer=0".to_string());
        for slot in [0, 1 << 16, 1 << 32, 1 << 63, Slot::MAX] {
            for byte in 0..size_of::<Slot>() {
                lines.extend(twins(slot, slot ^ 0x80 << (8 * byte)));
            }
        }
        lines.extend(of_tests());
        lines
    }

    /// Two slots at one address: as values of one key, to "slot equals", to the bucket filter, in a record.
    fn twins(slot: Slot, twin: Slot) -> Vec<String> {
        vec![
            "new :0 0 16 0 0".to_string(),
            format!("insert_or_update 0 :4 1:10.0.0.1:{slot} 1 0"),
            format!("insert_or_update 0 :5 1:10.0.0.1:{twin} 1 0"),
            format!("closest_values_predicate 0 :4 3:{slot} 2"),
            format!("closest_values_predicate 0 :4 3:{twin} 2"),
            format!("update_node 0 :4 1:10.0.0.1:{slot} 2"),
            format!("update_node 0 :4 1:10.0.0.1:{twin} 2"),
            "b_new 0 16 1".to_string(),
            format!("b_insert 0 :1 1:10.0.0.1:{slot} 0 0"),
            format!("b_insert 0 :2 1:10.0.0.1:{twin} 0 0"),
            format!("b_insert 0 :3 1:10.0.0.1:{slot} 0 0"),
            format!("b_insert 0 :4 1:10.0.0.1:{twin} 0 0"),
        ]
    }
}
