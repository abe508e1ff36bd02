//! Compiles the two ways in C, by the compiler that CC names, or cc.

use std::env;
use std::path::PathBuf;
use std::process::Command;

fn main() {
    let cc = env::var("CC").unwrap_or("cc".into());
    let out = PathBuf::from(env::var_os("OUT_DIR").unwrap());
    println!("cargo::rerun-if-env-changed=CC");
    for header in ["baseline.h", "rows.h", "sounder.h", "tags.h"] {
        println!("cargo::rerun-if-changed={header}");
    }
    for name in ["plain", "good", "plain_tags", "good_tags", "plain_sounder", "good_sounder"] {
        let (source, object) = (format!("{name}.c"), out.join(name).with_extension("o"));
        let flags = ["-std=c11", "-O3", "-fPIC", "-Wall", "-Wextra", "-Wconversion", "-Werror", "-c"];
        let done = Command::new(&cc).args(flags).arg(&source).arg("-o").arg(&object).status();
        if !done.is_ok_and(|status| status.success()) {
            println!("cargo::error={cc} does not compile bench/{source}; CC names another C compiler");
        }
        println!("cargo::rerun-if-changed={source}");
        println!("cargo::rustc-link-arg={}", object.display());
    }
}
