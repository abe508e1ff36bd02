//! Links librahmisve.a, from the folder that RAHMISVE_ARCHIVE_DIR names. A relative one counts from the folder that
//! cargo runs in.

use std::env;
use std::ffi::OsStr;
use std::os::unix::process::parent_id;
use std::path::{Path, PathBuf};

const ARCHIVE: &str = "librahmisve.a";

/// The folder as named. Cargo, which runs this elsewhere, is the parent; PWD is what a shell left, and `make -C` does
/// not change it.
fn named(dir: &OsStr) -> PathBuf {
    if Path::new(dir).is_absolute() {
        return dir.into();
    }
    println!("cargo::rerun-if-env-changed=PWD");
    let called = std::fs::read_link(format!("/proc/{}/cwd", parent_id())).ok();
    called.or_else(|| env::var_os("PWD").map(PathBuf::from)).unwrap_or_default().join(dir)
}

fn folder() -> Result<String, String> {
    let dir = env::var_os("RAHMISVE_ARCHIVE_DIR").unwrap_or_default();
    if dir.is_empty() {
        return Err(format!(
            "RAHMISVE_ARCHIVE_DIR is not set: set it to the folder that holds {ARCHIVE} \
             (tools/archive DIR/{ARCHIVE} makes it in the repository; a release has it in lib)"
        ));
    }
    let folder = named(&dir);
    let missing = if folder.is_file() {
        format!("{} is a file: name its folder", folder.display())
    } else if !folder.is_dir() {
        format!("there is no folder {}", folder.display())
    } else if !folder.join(ARCHIVE).is_file() {
        format!("there is no {ARCHIVE} in {}", folder.display())
    } else if let Some(name) = folder.to_str() {
        return Ok(name.into());
    } else {
        format!("{} is not UTF-8, which cargo asks of a folder", folder.display())
    };
    Err(format!("RAHMISVE_ARCHIVE_DIR is {}: {missing}", Path::new(&dir).display()))
}

fn main() {
    println!("cargo::rerun-if-env-changed=RAHMISVE_ARCHIVE_DIR");
    match folder() {
        Ok(folder) => {
            println!("cargo::rerun-if-changed={folder}/{ARCHIVE}");
            println!("cargo::rustc-link-search=native={folder}");
            println!("cargo::rustc-link-lib=static=rahmisve");
        }
        Err(missing) => println!("cargo::error={missing}"),
    }
}
