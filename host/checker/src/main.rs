//! kildegrom-check, the program behind ./check: a room's blocks, and what is wrong with it and where. The places are the reference's; the number is the
//! proved library's, which is asked beside it.

mod library;
mod meaning;
mod objects;
mod report;
mod rules;
mod texts;
mod words;

use std::io::{ErrorKind, Read, Write};
use std::path::Path;
use std::process::exit;

const USAGE: &str = "usage: kildegrom-check [--quiet] [--] ROOM";

const HELP: &str = "
Prints the blocks of a room with their offsets and sizes, and whether the room and its objects' images are accepted; for what is refused
the number, the block, the strip, the operation and the byte and bit at fault. --quiet leaves out the blocks, the notes and what is
accepted of the images. --help prints this.

Exit status: 0 nothing is wrong; 1 the room or an object's image is refused, or the output can't be written; 2 wrong usage, or a file that
can't be read; 3 the places told don't agree with the proved library's number.";

/// Ends with a message on standard error. A message that can't be written is no reason to end otherwise.
fn stop(status: i32, text: &str) -> ! {
    let _ = writeln!(std::io::stderr(), "check: {text}");
    exit(status)
}

fn wrong_usage() -> ! {
    let _ = writeln!(std::io::stderr(), "{USAGE}");
    exit(2)
}

/// What goes to standard output goes there whole. Who closes a pipe early needs no message; 141 is what the shell gives for it.
fn write(text: &str) {
    let mut out = std::io::stdout();
    match out.write_all(text.as_bytes()).and_then(|()| out.flush()) {
        Ok(()) => (),
        Err(error) if error.kind() == ErrorKind::BrokenPipe => exit(141),
        Err(error) => stop(1, &format!("standard output can't be written: {error}")),
    }
}

/// Whether --quiet is given, and the file.
fn words() -> (bool, std::ffi::OsString) {
    let (mut quiet, mut files, mut options) = (false, vec![], true);
    for word in std::env::args_os().skip(1) {
        match word.to_str() {
            Some("--") if options => options = false,
            Some("--quiet") if options => quiet = true,
            Some("--help" | "-h") if options => {
                write(&format!("{USAGE}\n{HELP}\n"));
                exit(0)
            }
            Some(text) if options && text.starts_with('-') => wrong_usage(),
            _ => files.push(word),
        }
    }
    match <[_; 1]>::try_from(files) {
        Ok([file]) => (quiet, file),
        Err(_) => wrong_usage(),
    }
}

/// The room's bytes. One more than a room may have tells that there are more.
fn read(file: &Path, name: &str) -> Vec<u8> {
    if file.is_dir() {
        stop(2, &format!("a folder, not a file: {name}"));
    }
    let mut bytes = vec![];
    let most = reference::block::LONGEST as u64 + 1;
    match std::fs::File::open(file).and_then(|file| file.take(most).read_to_end(&mut bytes)) {
        Ok(_) => bytes,
        Err(error) if error.kind() == ErrorKind::NotFound => stop(2, &format!("no such file: {name}")),
        Err(error) => stop(2, &format!("the file can't be read: {name}: {error}")),
    }
}

fn main() {
    let (quiet, file) = words();
    let name = file.to_string_lossy();
    let bytes = read(Path::new(&file), &name);
    let report = report::report(&name, &bytes, quiet);
    write(&report.text);
    for difference in &report.differences {
        let _ = writeln!(std::io::stderr(), "check: {difference}");
    }
    let status = if report.refused { 1 } else { 0 };
    exit(if report.differences.is_empty() { status } else { 3 });
}
