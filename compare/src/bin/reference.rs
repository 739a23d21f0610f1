//! Reads calls and writes the answers of the routing table of sigp/discv5.

use std::process::ExitCode;

#[cfg(reference_source)]
const HELP: &str = "reference [--dump]

Reads calls from standard input, one a line, and writes the answers of the routing table of sigp/discv5.
With --dump the table follows each call, the bucket by itself each b_ call.

    echo 'new :0 10 16 0 0' | reference
";

#[cfg(not(reference_source))]
fn main() -> ExitCode {
    eprintln!(
        "reference: built without the source of sigp/discv5; set DISCV5_SRC to the folder of kbucket.rs and build again"
    );
    ExitCode::from(2)
}

#[cfg(reference_source)]
fn main() -> ExitCode {
    let help = || HELP.to_string();
    compare::program::run("reference", &[("--help", help), ("-h", help)], compare::driver::Driver::new())
}
