//! The statement printers as processes, and one without a book.

use std::env;
use std::io::Write;
use std::path::{Path, PathBuf};
use std::process::{Command, Stdio};

/// The bare program, which only reads the image, and the printers of the proved
/// book, of the plain one and of the plain one passed by value.
pub fn programs() -> [PathBuf; 4] {
    let benchmark = env::current_exe().expect("this program has a path");
    let root = Path::new(env!("CARGO_MANIFEST_DIR")).join("..");
    [
        benchmark.with_file_name("bare"),
        root.join("target/bin/statement_printer"),
        benchmark.with_file_name("statement_printer_plain"),
        benchmark.with_file_name("statement_printer_by_value"),
    ]
}

/// What a program writes of an image.
pub fn print(program: &Path, image: &[u8]) -> Vec<u8> {
    let mut child = Command::new(program)
        .stdin(Stdio::piped())
        .stdout(Stdio::piped())
        .spawn()
        .unwrap_or_else(|error| {
            panic!(
                "{}: {error}; scripts/benchmark builds it",
                program.display()
            )
        });
    let mut stdin = child.stdin.take().expect("standard input is a pipe");
    stdin.write_all(image).expect("the printer reads the image");
    drop(stdin);
    let output = child.wait_with_output().expect("the printer ends");
    assert!(output.status.success(), "{}", program.display());
    output.stdout
}
