//! Finds the archive `libmquerier.a` in the folder `MQUERIER_LIB`. If that is not set, it is in `lib` of the repository or release that
//! has this crate, or where pkg-config says.

use std::env;
use std::path::{Path, PathBuf};
use std::process::{exit, Command};

const ARCHIVE: &str = "libmquerier.a";

/// Returns a folder if it has the archive, or what it lacks.
fn with_archive(folder: PathBuf) -> Result<PathBuf, String> {
    let archive = folder.join(ARCHIVE);
    match archive.is_file() {
        true => Ok(folder),
        false => Err(format!("{} does not exist", archive.display())),
    }
}

/// Returns the folder `MQUERIER_LIB`. A relative one is of the folder in which cargo was started, or of this crate.
fn asked(folder: &Path, package: &Path) -> Result<PathBuf, String> {
    println!("cargo:rerun-if-env-changed=PWD");
    let started = env::var_os("PWD").map_or_else(|| package.into(), PathBuf::from);
    with_archive(started.join(folder)).or_else(|why| with_archive(package.join(folder)).map_err(|_| why))
}

/// Returns the folder of the repository's or the release's archive for the target.
fn beside(package: &Path) -> Result<PathBuf, String> {
    let (lib, target) = (package.join("../../lib"), env::var("TARGET").unwrap_or_default());
    let folder = if target.starts_with("x86_64-") { lib } else { lib.join(target) };
    with_archive(folder.canonicalize().unwrap_or(folder))
}

fn told_by_pkg_config() -> Result<PathBuf, String> {
    let program = env::var("PKG_CONFIG").unwrap_or_else(|_| "pkg-config".into());
    let ran = Command::new(&program).args(["--variable=libdir", "libmquerier"]).output();
    let ran = ran.map_err(|why| format!("{program} cannot be run: {why}"))?;
    match String::from_utf8_lossy(&ran.stdout).trim() {
        folder if ran.status.success() && !folder.is_empty() => with_archive(folder.into()),
        _ => Err(format!("{program} does not know libmquerier")),
    }
}

/// Returns the folder of the archive, or a line for each way in which it was not found.
fn folder_of_archive(package: &Path) -> Result<PathBuf, String> {
    if let Some(folder) = env::var_os("MQUERIER_LIB").filter(|it| !it.is_empty()) {
        let why =
            |why| format!("- MQUERIER_LIB is set: {why}.\n- lib of the repository, pkg-config: only if it is not set.");
        return asked(Path::new(&folder), package).map_err(why);
    }
    beside(package).or_else(|beside| {
        let lines = |told| {
            format!(
                "- MQUERIER_LIB, the folder of the archive: it is not set.\n\
                 - lib of the repository: {beside}. `make lib` makes it.\n\
                 - pkg-config: {told}. Set PKG_CONFIG_PATH to the folder of libmquerier.pc."
            )
        };
        told_by_pkg_config().map_err(lines)
    })
}

fn main() {
    for name in ["MQUERIER_LIB", "PKG_CONFIG", "PKG_CONFIG_PATH"] {
        println!("cargo:rerun-if-env-changed={name}");
    }
    let package = PathBuf::from(env::var_os("CARGO_MANIFEST_DIR").expect("cargo sets it"));
    match folder_of_archive(&package) {
        Ok(folder) => {
            println!("cargo:rerun-if-changed={}", folder.join(ARCHIVE).display());
            println!("cargo:rustc-link-search=native={}", folder.display());
            println!("cargo:rustc-link-lib=static=mquerier");
        }
        Err(why) => {
            eprintln!("{ARCHIVE} was not found:\n{why}");
            exit(1);
        }
    }
}
