//! Names the library to link with, which `bindings/install.sh` has installed. The first of these that
//! is there counts:
//!
//! 1. the one in the folder that `SERYUGO_PREFIX` names;
//! 2. the one that the program `pkg-config` finds, if that has this crate's version.
//!
//! A folder may be relative to where `cargo` was called.

use std::env;
use std::path::PathBuf;
use std::process::{Command, Stdio};

const ROOMS: &str = "seryugo";
const SCRIPTS: &str = "seryugo_script";

/// The libraries, the folders that they lie in, and what named these.
struct Place {
    libraries: Vec<&'static str>,
    folders: Vec<PathBuf>,
    named_by: &'static str,
}

fn main() {
    let mut libraries = vec![ROOMS];
    if env::var_os("CARGO_FEATURE_SCRIPTS").is_some() {
        libraries.push(SCRIPTS);
    }
    for variable in ["PKG_CONFIG", "PKG_CONFIG_PATH"] {
        println!("cargo:rerun-if-env-changed={variable}");
    }
    let (folders, named_by) = if let Some(prefixes) = folders("SERYUGO_PREFIX") {
        let folders = prefixes.iter().map(|prefix| prefix.join("lib")).collect();
        (folders, "SERYUGO_PREFIX names")
    } else {
        let folders = libraries.iter().filter_map(|library| packaged(library)).collect();
        (folders, "pkg-config names")
    };
    let place = Place {
        libraries,
        folders,
        named_by,
    };
    place.link();
}

impl Place {
    /// Links with the libraries. If one is written again, the crate is built again.
    fn link(&self) {
        for folder in &self.folders {
            println!("cargo:rustc-link-search=native={}", folder.display());
        }
        let mut missing = Vec::new();
        for library in &self.libraries {
            println!("cargo:rustc-link-lib=static={library}");
            let name = format!("lib{library}.a");
            match self.folders.iter().map(|folder| folder.join(&name)).find(|file| file.exists()) {
                Some(file) => println!("cargo:rerun-if-changed={}", file.display()),
                None => missing.push(name),
            }
        }
        if !missing.is_empty() {
            self.refuse(&missing.join(", "));
        }
    }

    /// Says what to do, since no program is linked without a library. The documentation needs none.
    fn refuse(&self, missing: &str) {
        if env::var_os("DOCS_RS").is_some() {
            return;
        }
        let folders: Vec<_> =
            self.folders.iter().map(|folder| folder.display().to_string()).collect();
        let folders = match folders.is_empty() {
            true => "any folder".to_string(),
            false => folders.join(", "),
        };
        println!(
            "cargo::error=there is no {missing} in {folders}, which {}. Run `sh bindings/try.sh \
             PREFIX` in the repository, and set SERYUGO_PREFIX=PREFIX",
            self.named_by
        );
    }
}

/// The folders that a variable of the environment names.
fn folders(variable: &str) -> Option<Vec<PathBuf>> {
    println!("cargo:rerun-if-env-changed={variable}");
    let named = env::var_os(variable)?;
    Some(env::split_paths(&named).map(absolute).collect())
}

/// A folder where `cargo` was called, or in this crate if there is none.
fn absolute(folder: PathBuf) -> PathBuf {
    if folder.is_absolute() {
        return folder;
    }
    println!("cargo:rerun-if-env-changed=PWD");
    let called_in = env::var_os("PWD").map(PathBuf::from).unwrap_or_default();
    let there = called_in.join(&folder);
    if called_in.is_absolute() && there.exists() {
        return there;
    }
    env::current_dir().unwrap_or_default().join(folder)
}

/// Where `pkg-config` finds an installed library of this crate's version.
fn packaged(library: &str) -> Option<PathBuf> {
    let wanted = format!("{library} = {}", env!("CARGO_PKG_VERSION"));
    pkg_config(&["--exists", &wanted])?;
    let folder = pkg_config(&["--variable=libdir", library])?;
    Some(absolute(PathBuf::from(unquoted(folder.trim_end()))))
}

/// A word without the backslashes that `pkg-config` writes before spaces and the like for a shell.
fn unquoted(word: &str) -> String {
    let mut letters = word.chars();
    let next = || match letters.next() {
        Some('\\') => letters.next(),
        letter => letter,
    };
    std::iter::from_fn(next).collect()
}

/// What `pkg-config` prints, if it is there and ends well.
fn pkg_config(words: &[&str]) -> Option<String> {
    let program = env::var_os("PKG_CONFIG").unwrap_or_else(|| "pkg-config".into());
    let ended = Command::new(program).args(words).stderr(Stdio::null()).output().ok()?;
    ended.status.success().then(|| String::from_utf8_lossy(&ended.stdout).into_owned())
}
