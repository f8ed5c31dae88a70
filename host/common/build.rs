//! Links libkildegrom.a from the folder KILDEGROM_LIB (a relative one is seen from this folder).

fn main() {
    println!("cargo:rerun-if-env-changed=KILDEGROM_LIB");
    let folder = std::env::var("KILDEGROM_LIB").unwrap_or("../../target/staticlib".into());
    let folder = std::fs::canonicalize(&folder).unwrap_or(folder.into());
    println!("cargo:rerun-if-changed={}", folder.join("libkildegrom.a").display());
    println!("cargo:rustc-link-search=native={}", folder.display());
    println!("cargo:rustc-link-lib=static=kildegrom");
}
