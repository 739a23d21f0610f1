//! The comparison finds nothing between the reference and itself, finds and shrinks a changed answer or dump, and fails where it did less
//! than was asked for.

use std::path::Path;
use std::process::{Command, Output};

const REFERENCE: &str = env!("CARGO_BIN_EXE_reference");

fn compare(arguments: &[&str]) -> Output {
    Command::new(env!("CARGO_BIN_EXE_compare")).args(arguments).output().unwrap()
}

fn has_reference() -> bool {
    if !cfg!(reference_source) {
        eprintln!("skipped: built without the reference");
    }
    cfg!(reference_source)
}

/// Also in runs that are too short to reach every outcome.
#[test]
fn agrees_with_itself() {
    if has_reference() {
        for (calls, reached) in [("1000", false), ("200000", true)] {
            let run = compare(&["--calls", calls, "--seed", "7", REFERENCE, REFERENCE]);
            let text = String::from_utf8(run.stdout).unwrap();
            assert_eq!(run.status.code(), Some(0), "{text}");
            assert!(text.contains("calls agree"), "{text}");
            let (outcomes, _) = text.split_once("Asked of the listings").unwrap();
            assert_eq!(!outcomes.contains("not reached: "), reached, "{text}");
        }
    }
}

/// Behind a malformed bucket the answers of the two are not held against each other, up to the next new table; a bucket by itself is.
#[test]
fn passes_over_malformed_buckets() {
    use compare::run::{Program, compare};
    if !has_reference() {
        return;
    }
    let lines = |text: &str| text.lines().map(str::to_string).collect::<Vec<String>>();
    // Answers Present where the reference does not answer, and SelfEntry where it says Absent.
    let (reference, script) = (format!("REFERENCE={REFERENCE}"), script("changed.sh"));
    let edited = ["env", &reference, "EDIT=s/^Malformed$/Present(0\\/0)/;s/^Absent$/SelfEntry/"];
    let command = edited.into_iter().map(str::to_string).chain(script.split(' ').map(str::to_string));
    let programs = [Program(vec![REFERENCE.to_string()]), Program(command.collect())];
    let malformed = "new :0 10 16 0 0\nraw_byte 5168 17\nentry 0 :1\n";
    let parted = |text: &str| compare(&programs, &lines(text), |_| ()).unwrap().map(|parted| parted.at);
    assert_eq!(parted("new :0 10 16 0 0\nentry 0 :1"), Some(1));
    assert_eq!(parted(malformed), None);
    assert_eq!(parted(&format!("{malformed}raw_byte 5168 0\nentry 0 :1\ntake_applied_pending")), None);
    assert_eq!(parted(&format!("{malformed}! new :0 10 16 0 0\nraw_byte 5168 0\nentry 0 :1")), None);
    assert_eq!(parted(&format!("{malformed}new :0 10 16 0 0\nentry 0 :1")), Some(4));
    let mut passed = Vec::new();
    let list = lines(&format!("{malformed}b_new 10 16 0\nentry 0 :2\nnew :0 10 16 0 0\nremove 0 :1"));
    assert!(compare(&programs, &list, |answered| passed.push(answered.passed)).unwrap().is_none());
    assert_eq!(passed, [false, false, true, false, true, false, false]);
}

/// The command that runs a script beside this file.
fn script(name: &str) -> String {
    format!("sh {}", Path::new(env!("CARGO_MANIFEST_DIR")).join("tests").join(name).display())
}

/// The fewest lines, and what each program says, of the disagreement between the reference and an edited one.
fn shrunk(edit: &str) -> (Vec<String>, String, String) {
    let run = Command::new(env!("CARGO_BIN_EXE_compare"))
        .args(["--calls", "20000", "--seed", "7", REFERENCE, &script("changed.sh")])
        .env("REFERENCE", REFERENCE)
        .env("EDIT", edit)
        .output()
        .unwrap();
    let text = String::from_utf8(run.stdout).unwrap();
    assert_eq!(run.status.code(), Some(1), "{text}");
    let (_, shrunk) = text.split_once("the fewest lines that show it:\n\n").expect(&text);
    let (lines, answers) = shrunk.split_once("\n\n").expect(&text);
    let (first, second) = answers.trim_end().strip_prefix("first:  ").unwrap().split_once("\nsecond: ").unwrap();
    (lines.lines().map(str::to_string).collect(), first.to_string(), second.to_string())
}

#[test]
fn finds_and_shrinks_a_changed_answer() {
    if has_reference() {
        let (lines, first, second) = shrunk("s/^UpdatedAndPromoted$/Updated/");
        assert_eq!((&first[..], &second[..]), ("UpdatedAndPromoted", "Updated"));
        // A node, perhaps a call that disconnects it, and the call that connects it.
        assert!((2..=3).contains(&lines.len()), "{lines:?}");
    }
}

#[test]
fn finds_and_shrinks_a_changed_dump() {
    if has_reference() {
        let (lines, first, _) = shrunk("s/ queue=.*$/ queue=[]/");
        assert!(first.starts_with("dump "), "{first}");
        // At most: a new table, sixteen nodes, a call that disconnects one, a pending, and the call that applies it.
        assert!(lines.len() <= 20, "{lines:?}");
    }
}

/// In the queue of a dump, though no call answers it.
#[test]
fn finds_and_shrinks_a_changed_ending() {
    if has_reference() {
        let (lines, first, second) = shrunk("/^dump/s/!cleared_confirmed/!cleared_inserted/g");
        let (_, queue) = first.split_once(" queue=[").expect(&first);
        assert!(queue.ends_with("!cleared_confirmed]"), "{first}");
        assert_eq!(second, first.replace("!cleared_confirmed", "!cleared_inserted"));
        // At most: a table, sixteen nodes, a pending, and the call that confirms place 0.
        assert!(lines.len() <= 19, "{lines:?}");
    }
}

#[test]
fn finds_and_shrinks_a_changed_explanation() {
    if has_reference() {
        let (lines, first, second) =
            shrunk("s/^Failed TooManyIncoming bucket filter /Failed TooManyIncoming incoming limit /");
        let keys = first.strip_prefix("Failed TooManyIncoming bucket filter ").expect(&first);
        assert_eq!(second, format!("Failed TooManyIncoming incoming limit {keys}"));
        assert!(lines.last().unwrap().starts_with("explain insert_or_update "), "{lines:?}");
    }
}

/// Two programs that agree, and explain another answer than they give.
#[test]
fn finds_a_call_that_answers_otherwise_than_explained() {
    if has_reference() {
        let changed = script("changed.sh");
        let run = Command::new(env!("CARGO_BIN_EXE_compare"))
            .args(["--calls", "20000", "--seed", "7", &changed, &changed])
            .env("REFERENCE", REFERENCE)
            .env("EDIT", "s/^UpdatedAndPromoted none$/Updated none/")
            .output()
            .unwrap();
        let text = String::from_utf8(run.stdout).unwrap();
        assert_eq!(run.status.code(), Some(1), "{text}");
        let said = "explained as \"Updated none\", and answered \"UpdatedAndPromoted\"";
        assert!(text.ends_with(&format!("\n\nfirst:  {said}\nsecond: {said}\n")), "{text}");
    }
}

/// As kbtable does where the library wrote what no call may write: no answer, a message, a status that is not 0.
#[test]
fn finds_and_shrinks_a_call_that_ends_the_program() {
    if has_reference() {
        let (lines, first, second) = shrunk("/^UpdatedAndPromoted$/{\ns/.*/byte 41 changed/w /dev/stderr\nQ1\n}");
        assert_eq!(first, "UpdatedAndPromoted");
        assert_eq!(second, "(no answer: the program ended: byte 41 changed)");
        assert!((2..=3).contains(&lines.len()), "{lines:?}");
    }
}

#[test]
fn finds_a_program_that_ends_early() {
    if has_reference() {
        let run = compare(&["--calls", "5000", "--seed", "7", REFERENCE, "true"]);
        let text = String::from_utf8(run.stdout).unwrap();
        assert_eq!(run.status.code(), Some(1), "{text}");
        assert!(text.contains("the program ended"), "{text}");
    }
}

/// Neither parts from the other; both part from the list.
#[test]
fn programs_that_both_end_early_do_not_agree() {
    for command in ["true", &script("one_answer.sh")] {
        let run = compare(&["--calls", "5000", "--seconds", "10", command, command]);
        let text = String::from_utf8(run.stdout).unwrap();
        assert_eq!(run.status.code(), Some(1), "{text}");
        let ended = "(no answer: the program ended)";
        assert!(text.ends_with(&format!("\n\nfirst:  {ended}\nsecond: {ended}\n")), "{text}");
    }
}

#[test]
fn fails_where_fewer_calls_ran_than_were_asked_for() {
    let run = compare(&["--calls", "5000", "--seconds", "0", "true", "true"]);
    let text = String::from_utf8(run.stdout).unwrap();
    assert_eq!(run.status.code(), Some(1), "{text}");
    assert!(text.contains("FAILED: only 0 of 5000 calls ran"), "{text}");
}

#[test]
fn fails_where_fewer_were_explained_than_were_asked_for() {
    let run = compare(&["--calls", "0", "--explanations", "10", "--seconds", "0", "true", "true"]);
    let text = String::from_utf8(run.stdout).unwrap();
    assert_eq!(run.status.code(), Some(1), "{text}");
    assert!(text.contains("FAILED: 0 calls agree, 0 of them as explained before, "), "{text}");
    assert!(text.ends_with(" s, and 10 were to be explained\n"), "{text}");
}

/// What compare says of 200,000 calls to two programs that agree, both the reference with its lines edited.
fn agreeing(edit: &str) -> String {
    let changed = script("changed.sh");
    let run = Command::new(env!("CARGO_BIN_EXE_compare"))
        .args(["--calls", "200000", &changed, &changed])
        .env("REFERENCE", REFERENCE)
        .env("EDIT", edit)
        .output()
        .unwrap();
    let text = String::from_utf8(run.stdout).unwrap();
    assert_eq!(run.status.code(), Some(1), "{text}");
    text
}

/// Two programs that never give one of the answers, and never end a pending in one of the ways.
#[test]
fn fails_where_an_outcome_is_not_reached() {
    if has_reference() {
        let text = agreeing(
            "s/^UpdatedAndPromoted\\( none\\)\\{0,1\\}$/Updated\\1/; /^dump/s/!cleared_confirmed/!cleared_inserted/g",
        );
        let not_reached = |what: &str, calls: &[&str]| {
            let missing: Vec<String> = calls.iter().map(|call| format!("{call} {what}")).collect();
            assert!(text.contains(&format!("not reached: {}\n", missing.join(", "))), "{text}");
        };
        let updates = ["present_update", "update_node", "update_node_status"];
        not_reached("UpdatedAndPromoted", &[&["b_update_status"], &updates[..]].concat());
        not_reached("cleared_confirmed", &[&["insert_or_update"], &updates[..]].concat());
        assert!(text.contains("8 outcomes that must be reached are not"), "{text}");
    }
}

/// One of 16 pendings that are cleared by a direct insert is told so.
#[test]
fn fails_where_an_ending_is_rare() {
    if has_reference() {
        let text = agreeing("s/\\([0-9a-e]\\)!cleared_inserted/\\1!cleared_confirmed/g");
        assert!(text.contains(", and 1 endings occur less than once in 1000 calls"), "{text}");
    }
}

#[test]
fn says_that_a_command_cannot_run() {
    for command in ["no-such-command", "false"] {
        assert_eq!(compare(&[command, command]).status.code(), Some(2));
    }
}
