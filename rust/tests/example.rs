//! The C programs, compiled by the system's C compiler and run.

use std::path::PathBuf;
use std::process::Command;

/// The lines that a program of this folder prints.
fn printed(name: &str) -> Vec<String> {
    let here = PathBuf::from(env!("CARGO_MANIFEST_DIR"));
    let program = PathBuf::from(env!("CARGO_TARGET_TMPDIR")).join(name);
    let source = here.join("tests").join(name).with_extension("c");
    let compiled = Command::new(std::env::var_os("CC").unwrap_or("cc".into()))
        .args(["-std=c99", "-Wall", "-Wextra", "-Werror", "-pedantic", "-I"])
        .args([here.join("../include"), source, env!("PICMAN_LIBRARY").into()])
        .arg("-o")
        .arg(&program)
        .status()
        .expect("a C compiler");
    assert!(compiled.success());
    let ran = Command::new(&program).output().expect("the program runs");
    assert!(ran.status.success());
    String::from_utf8_lossy(&ran.stdout).lines().map(str::to_string).collect()
}

#[test]
fn c_example() {
    let answers = [
        "0100ff0000000000",
        "02000000000000fe",
        "03000000000000fd",
        "04000000000000fc",
        "0441ff00000000bc",
        "0012ff00000000ef",
    ];
    assert_eq!(printed("example"), answers);
}

/// Slot, status, reason and place: taken at 0; on the other side; no such place.
#[test]
fn c_why() {
    assert_eq!(printed("why"), ["0 0 0 0", "1 0 5 0", "2 14 255 255"]);
}

/// Status, length and line: written; no room. Status, place and call: an answer, a bad line, an answer, no more.
#[test]
fn c_lines() {
    let read = ["0 at 0: call 1", "18 at 17: call 0", "0 at 19: call 4", "65 at 35: call 0"];
    let printed = printed("lines");
    assert_eq!(printed[..2], ["0 5 02fe", "20 0 "]);
    assert_eq!(printed[2..], read);
}
