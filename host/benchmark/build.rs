//! Compiles the partners in C (partners/*.c) as a host would, with `cc -O2`; CC names another compiler. Loops start at multiples of 64, so that no partner
//! is slower by where the linker happens to put it. What compiled them is printed with the tables.

use std::path::Path;
use std::process::Command;

const SOURCES: [&str; 3] = ["plain", "encode", "loop"];
const STRICT: [&str; 5] = ["-std=c99", "-Wall", "-Wextra", "-pedantic", "-Werror"];
const FLAGS: [&str; 3] = ["-O2", "-falign-functions=64", "-falign-loops=64"];

/// What the command prints; it must succeed.
fn run(program: &str, arguments: &[String]) -> String {
    let output = Command::new(program).args(arguments).output().unwrap_or_else(|why| panic!("{program}: {why}"));
    assert!(output.status.success(), "{program} {arguments:?}: {}", String::from_utf8_lossy(&output.stderr));
    String::from_utf8_lossy(&output.stdout).into_owned()
}

fn main() {
    let out = std::env::var("OUT_DIR").expect("cargo names a folder");
    let compiler = std::env::var("CC").unwrap_or("cc".into());
    println!("cargo:rerun-if-env-changed=CC");
    println!("cargo:rerun-if-changed=partners");
    let mut archive = vec!["rcs".into(), format!("{out}/libpartners.a")];
    for source in SOURCES {
        let (from, to) = (format!("partners/{source}.c"), format!("{out}/{source}.o"));
        let names = ["-c", &from, "-o", &to];
        run(&compiler, &STRICT.iter().chain(&FLAGS).chain(&names).map(|text| text.to_string()).collect::<Vec<String>>());
        archive.push(to);
    }
    let _ = std::fs::remove_file(Path::new(&archive[1]));
    run("ar", &archive);
    println!("cargo:rustc-link-search=native={out}");
    println!("cargo:rustc-link-lib=static=partners");
    let version = run(&compiler, &["--version".into()]);
    println!("cargo:rustc-env=PARTNERS_COMPILER={} {}", version.lines().next().unwrap_or(&compiler), FLAGS.join(" "));
}
