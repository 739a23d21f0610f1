//! The reference answers the twelve positions and the questions of document 01, explains, writes and reads tables, ends pendings, and admits
//! in session hours, as the files say, and refuses bad lines.

mod programs;

const REFERENCE: &str = env!("CARGO_BIN_EXE_reference");

fn has_reference() -> bool {
    if !cfg!(reference_source) {
        eprintln!("skipped: built without the reference");
    }
    cfg!(reference_source)
}

#[test]
fn twelve_positions() {
    if has_reference() {
        programs::answers_as_written(REFERENCE, "rows.txt");
    }
}

#[test]
fn questions() {
    if has_reference() {
        programs::answers_as_written(REFERENCE, "questions.txt");
    }
}

#[test]
fn explanations() {
    if has_reference() {
        programs::answers_as_written(REFERENCE, "explain.txt");
    }
}

#[test]
fn written_and_read() {
    if has_reference() {
        programs::answers_as_written(REFERENCE, "saved.txt");
    }
}

#[test]
fn endings() {
    if has_reference() {
        programs::answers_as_written(REFERENCE, "endings.txt");
    }
}

#[test]
fn hours() {
    if has_reference() {
        programs::answers_as_written(REFERENCE, "hours.txt");
    }
}

#[test]
fn slots() {
    if has_reference() {
        programs::tells_slots_apart(REFERENCE);
    }
}

#[test]
fn bad_lines() {
    if has_reference() {
        programs::refuses_bad_lines(REFERENCE);
    }
}
