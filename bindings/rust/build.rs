//! Finds libjskw.a: in the folder that the environment variable JSKW_DIR names (or `lib` in it), by pkg-config, or in
//! bindings/out of the repository.
use std::env::var_os;
use std::path::{Path, PathBuf};
use std::process::{exit, Command};

const ARCHIVE: &str = "libjskw.a";

fn main() {
    println!("cargo:rerun-if-changed=build.rs");
    println!("cargo:rerun-if-env-changed=JSKW_DIR");
    println!("cargo:rerun-if-env-changed=PKG_CONFIG_PATH");
    let folder = folder().unwrap_or_else(|message| {
        eprintln!("jskw: {message}");
        exit(1);
    });
    println!("cargo:rerun-if-changed={}", folder.join(ARCHIVE).display());
    println!("cargo:rustc-link-search=native={}", folder.display());
    println!("cargo:rustc-link-lib=static=jskw");
}

/// Returns the folder of the library.
fn folder() -> Result<PathBuf, String> {
    if let Some(named) = var_os("JSKW_DIR") {
        let named = PathBuf::from(named);
        let found = [named.clone(), named.join("lib")].into_iter().find(|folder| has_archive(folder));
        return found.ok_or(format!("JSKW_DIR names {}, which has no {ARCHIVE}", named.display()));
    }
    let beside = Path::new(env!("CARGO_MANIFEST_DIR")).join("../out");
    let found = installed().into_iter().chain([beside]).find(|folder| has_archive(folder));
    found.ok_or(format!(
        "no {ARCHIVE}: run bindings/build or ./install in the repository, or name its folder by JSKW_DIR"
    ))
}

fn has_archive(folder: &Path) -> bool {
    folder.join(ARCHIVE).is_file()
}

/// Returns the folder of an installed library with the interface that this crate calls.
fn installed() -> Option<PathBuf> {
    let is_ours = pkg_config("--modversion")?.starts_with("0.3.");
    pkg_config("--variable=libdir").filter(|_| is_ours).map(PathBuf::from)
}

fn pkg_config(question: &str) -> Option<String> {
    let asked = Command::new("pkg-config").args([question, "jskw"]).output().ok()?;
    // it writes a space as the shell reads it
    let answer = String::from_utf8(asked.stdout).ok()?.trim().replace("\\ ", " ");
    (asked.status.success() && !answer.is_empty()).then_some(answer)
}
