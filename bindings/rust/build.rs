//! Finds the archive: in the folder that CHORDVENUS_LIB_DIR names, from where cargo was started if it is
//! relative, or where bindings/archive puts it, target/staticlib at the repository's root. It must be of the
//! version that this crate is for.

use std::path::{Path, PathBuf};
use std::{env, fs, process};

/// The function that an archive of this crate's version has, and no other archive.
const BUILT_FOR: &str = "cv_interface_1";

fn main() {
    println!("cargo:rerun-if-env-changed=CHORDVENUS_LIB_DIR");
    let [processor, system] = ["ARCH", "OS"].map(|part| set(&format!("CARGO_CFG_TARGET_{part}")));
    if (&*processor, &*system) != ("x86_64", "linux") {
        refuse(&format!("the archive is for x86-64 Linux, and this is built for {processor} {system}"));
    }
    let folder = match env::var_os("CHORDVENUS_LIB_DIR") {
        Some(named) => started_in().join(named),
        None => Path::new(&set("CARGO_MANIFEST_DIR")).join("../../target/staticlib"),
    };
    let archive = folder.join("libchordvenus.a");
    println!("cargo:rerun-if-changed={}", archive.display());
    let bytes = fs::read(&archive).unwrap_or_else(|_| {
        refuse(&format!(
            "there is no {}: bindings/archive makes it at the repository's root, and CHORDVENUS_LIB_DIR names another folder",
            archive.display()
        ))
    });
    if !names(&bytes).contains(&BUILT_FOR.as_bytes()) {
        refuse(&format!(
            "{} has another version than this crate: it does not have {BUILT_FOR}",
            archive.display()
        ));
    }
    let folder = folder.canonicalize().expect("the archive is in it");
    println!("cargo:rustc-link-search=native={}", folder.display());
    println!("cargo:rustc-link-lib=static=chordvenus");
}

/// The names in an archive's index: behind the first member's head of 60 bytes how many there are, a number for each,
/// and then the names, each closed by a zero byte.
fn names(archive: &[u8]) -> Vec<&[u8]> {
    let index = archive.get(8 + 60..).unwrap_or(&[]);
    let count =
        index.get(..4).map_or(0, |four| four.iter().fold(0, |sum, &byte| sum << 8 | usize::from(byte)));
    index.get(4 + 4 * count..).unwrap_or(&[]).split(|&byte| byte == 0).take(count).collect()
}

/// The folder that cargo was started in: a build script itself is started in the package's.
fn started_in() -> PathBuf {
    let cargo = std::os::unix::process::parent_id();
    fs::read_link(format!("/proc/{cargo}/cwd")).unwrap_or_else(|_| PathBuf::from(set("PWD")))
}

fn set(name: &str) -> String {
    env::var(name).unwrap_or_else(|_| refuse(&format!("{name} is not set")))
}

fn refuse(why: &str) -> ! {
    eprintln!("{why}");
    process::exit(1)
}
