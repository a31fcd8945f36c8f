// Links libopb.a: from the folder in OPB_LIB_DIR, else from target/archive of the repository, where tools/archive puts it.
use std::env;
use std::path::{Path, PathBuf};
use std::process::exit;

fn fail(message: String) -> ! {
    eprintln!("{}", message);
    exit(1)
}

fn word(name: &str) -> String {
    env::var(name).unwrap_or_default()
}

fn folder() -> PathBuf {
    match env::var_os("OPB_LIB_DIR") {
        Some(folder) => PathBuf::from(folder),
        None => Path::new(&word("CARGO_MANIFEST_DIR")).join("../../target/archive"),
    }
}

fn main() {
    println!("cargo:rerun-if-env-changed=OPB_LIB_DIR");
    let folder = folder();
    let archive = folder.join("libopb.a");
    println!("cargo:rerun-if-changed={}", archive.display());
    if env::var_os("OPB_LIB_DIR").is_none() && word("HOST") != word("TARGET") {
        fail(format!("tools/archive makes libopb.a for the processor at hand, {}: for {} set OPB_LIB_DIR to the folder of an archive made there", word("HOST"), word("TARGET")));
    }
    if !archive.is_file() {
        fail(format!("there is no {}: run tools/archive in the repository, or set OPB_LIB_DIR to the archive's folder", archive.display()));
    }
    println!("cargo:rustc-link-search=native={}", folder.display());
    println!("cargo:rustc-link-lib=static=opb");
}
