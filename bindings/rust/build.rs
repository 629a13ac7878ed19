//! Links the static library `liblimberlime.a`, from the folder that `LIMBERLIME_LIB_DIR` names, or else from the one
//! where the program `pkg-config` says that it is installed.

use std::process::{exit, Command};
use std::{env, str};

fn main() {
    println!("cargo:rerun-if-env-changed=LIMBERLIME_LIB_DIR");
    println!("cargo:rerun-if-env-changed=PKG_CONFIG_PATH");
    let folder = env::var("LIMBERLIME_LIB_DIR").or_else(|_| installed());
    let folder = folder.unwrap_or_else(|problem| fail(&problem));
    println!("cargo:rustc-link-search=native={folder}");
    println!("cargo:rustc-link-lib=static=limberlime");
    println!("cargo:rerun-if-changed={folder}/liblimberlime.a");
}

/// The folder of the installed library, if it has this crate's version or a later one.
fn installed() -> Result<String, String> {
    let version = env!("CARGO_PKG_VERSION");
    let library = format!("limberlime >= {version}");
    let words = ["--print-errors", "--variable=libdir", library.as_str()];
    let ran = Command::new("pkg-config").args(words).output();
    let ran = ran.map_err(|error| format!("the program pkg-config does not start: {error}"))?;
    let folder = str::from_utf8(&ran.stdout).unwrap_or("").trim();
    if ran.status.success() && !folder.is_empty() {
        return Ok(folder.to_string());
    }
    Err(String::from_utf8_lossy(&ran.stderr).into_owned())
}

fn fail(problem: &str) -> ! {
    eprintln!("{}", problem.trim_end());
    eprintln!(
        "The library limberlime {} was not found. Install the package liblimberlime-dev",
        env!("CARGO_PKG_VERSION")
    );
    eprintln!("and the program pkg-config, or set LIMBERLIME_LIB_DIR to the folder of liblimberlime.a.");
    eprintln!("If the library is installed under another prefix, add its lib/pkgconfig to PKG_CONFIG_PATH.");
    exit(1)
}
