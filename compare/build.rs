//! Makes the reference: the k-bucket files of sigp/discv5, read from the folder `DISCV5_SRC` and written to `OUT_DIR` with the
//! substitutions below and nothing else. Where the files are not there, the package builds without the reference. Links the proved
//! library into `speed`; where it is not there, or lacks a function that `speed` calls, `speed` builds without it.

use std::path::{Path, PathBuf};
use std::{env, fs};

/// The folder of kbucket.rs, relative to this package, where `DISCV5_SRC` does not say another.
const DEFAULT_SOURCE: &str = "../../shared/docs/src/src";

/// The folder of the proved library, relative to this package, where `KBUCKETS_LIB` does not say another.
const DEFAULT_LIBRARY: &str = "../target/staticlib";
const LIBRARY: &str = "libkbuckets.a";
/// The functions that `speed` calls.
const EXPORTS: [&str; 10] = [
    "kbuckets_new",
    "kbuckets_update_node_status",
    "kbuckets_insert_or_update",
    "kbuckets_remove",
    "kbuckets_iter",
    "kbuckets_closest_keys",
    "kbuckets_take_applied_pending",
    "kbuckets_explain_update_node_status",
    "kbuckets_explain_insert_or_update",
    "kbuckets_explain_remove",
];

/// One file of the source: where it is read and written, the texts replaced, and a child module that is appended.
struct File {
    from: &'static str,
    to: &'static str,
    /// Each text stands exactly once in the file.
    replace: &'static [(&'static str, &'static str)],
    /// Each text stands exactly twice in the file.
    twice: &'static [(&'static str, &'static str)],
    /// A file of this package that becomes the child module `access`: it reads and sets private fields.
    append: Option<&'static str>,
}

const FILES: [File; 5] = [
    File {
        from: "kbucket.rs",
        to: "mod.rs",
        replace: &[
            // The direction of a connection, all that is needed of the handler.
            ("pub use crate::handler::ConnectionDirection;", "pub use crate::stand_ins::handler::ConnectionDirection;"),
            // An array with a length.
            ("use arrayvec::{self, ArrayVec};", "use crate::stand_ins::arrayvec::{self, ArrayVec};"),
            // A settable clock.
            (
                "use std::{\n    collections::VecDeque,\n    time::{Duration, Instant},\n};",
                "use crate::stand_ins::clock::Instant;\nuse std::{collections::VecDeque, time::Duration};",
            ),
        ],
        // What the table filter counts, in update_node and in insert_or_update: not the key's own value (document 02, slip 3).
        twice: &[("&mut self.table_iter()", "&mut access::others(self, key)")],
        append: Some("append/kbucket.rs"),
    },
    File {
        from: "kbucket/bucket.rs",
        to: "bucket.rs",
        // Log lines go nowhere.
        replace: &[("use tracing::{debug, error};", "use crate::stand_ins::tracing::{debug, error};")],
        twice: &[],
        append: Some("append/bucket.rs"),
    },
    File { from: "kbucket/entry.rs", to: "entry.rs", replace: &[], twice: &[], append: None },
    File {
        from: "kbucket/filter.rs",
        to: "filter.rs",
        // The value (address and slot) in the place of a node record.
        replace: &[("use crate::Enr;", "use crate::stand_ins::Value as Enr;")],
        twice: &[],
        append: None,
    },
    File {
        from: "kbucket/key.rs",
        to: "key.rs",
        replace: &[
            // 32 bytes.
            ("use enr::NodeId;", "use crate::stand_ins::enr::NodeId;"),
            // A 256-bit number.
            ("use uint::construct_uint;", "use crate::stand_ins::uint::construct_uint;"),
        ],
        twice: &[],
        append: None,
    },
];

fn main() {
    proved_library();
    println!("cargo::rustc-check-cfg=cfg(reference_source)");
    println!("cargo::rerun-if-env-changed=DISCV5_SRC");
    println!("cargo::rerun-if-changed=build.rs");
    println!("cargo::rerun-if-changed=append");
    let package = PathBuf::from(env::var_os("CARGO_MANIFEST_DIR").unwrap());
    let out = PathBuf::from(env::var_os("OUT_DIR").unwrap());
    let source = match env::var_os("DISCV5_SRC") {
        Some(folder) => PathBuf::from(folder),
        None => package.join(DEFAULT_SOURCE),
    };
    for file in &FILES {
        println!("cargo::rerun-if-changed={}", source.join(file.from).display());
    }
    if let Some(file) = FILES.iter().find(|f| !source.join(f.from).is_file()) {
        println!(
            "cargo::warning=no {} in {}: built without the reference; set DISCV5_SRC to the folder of kbucket.rs",
            file.from,
            source.display()
        );
        return;
    }
    let folder = out.join("kbucket");
    fs::create_dir_all(&folder).unwrap();
    for file in &FILES {
        fs::write(folder.join(file.to), substituted(file, &source, &package)).unwrap();
    }
    let module = folder.join("mod.rs");
    fs::write(out.join("reference.rs"), format!("#[path = {module:?}]\npub mod kbucket;\n")).unwrap();
    println!("cargo::rustc-cfg=reference_source");
}

/// Links the proved library into `speed`.
fn proved_library() {
    println!("cargo::rustc-check-cfg=cfg(proved_library)");
    println!("cargo::rerun-if-env-changed=KBUCKETS_LIB");
    let folder = match env::var_os("KBUCKETS_LIB") {
        Some(folder) => PathBuf::from(folder),
        None => PathBuf::from(env::var_os("CARGO_MANIFEST_DIR").unwrap()).join(DEFAULT_LIBRARY),
    };
    let library = folder.join(LIBRARY);
    println!("cargo::rerun-if-changed={}", library.display());
    let Ok(archive) = fs::read(&library) else {
        println!(
            "cargo::warning=no {LIBRARY} in {}: speed is built without it; run 'tools/library', or set KBUCKETS_LIB to its folder",
            folder.display()
        );
        return;
    };
    // A name in the archive's index ends with a zero byte.
    let has = |name: &&str| archive.windows(name.len() + 1).any(|w| w.strip_suffix(&[0]) == Some(name.as_bytes()));
    if let Some(name) = EXPORTS.iter().find(|name| !has(name)) {
        println!("cargo::warning={} has no {name}: speed is built without it", library.display());
        return;
    }
    println!("cargo::rustc-link-arg-bin=speed={}", library.display());
    println!("cargo::rustc-cfg=proved_library");
}

/// The text of a file with its substitutions made.
fn substituted(file: &File, source: &Path, package: &Path) -> String {
    let path = source.join(file.from);
    let mut text = fs::read_to_string(&path).unwrap();
    for (times, texts) in [(1, file.replace), (2, file.twice)] {
        for (from, to) in texts {
            let found = text.matches(from).count();
            assert!(found == times, "{}: stands {found} times and not {times}: {from}", path.display());
            text = text.replace(from, to);
        }
    }
    if let Some(append) = file.append {
        let child = fs::read_to_string(package.join(append)).unwrap();
        text += &format!("\npub mod access {{\n{child}}}\n");
    }
    text
}
