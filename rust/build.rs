//! Finds the C libraries: in the folder that CAPCHECK_LIB names; otherwise in the `lib` of the PREFIX that this crate is
//! installed below, or where pkg-config finds them. The archives are linked, so a program needs no library where it runs.
use std::path::{Path, PathBuf};
use std::process::{exit, Command};
use std::{env, fs};

const LIBRARIES: [&str; 2] = ["capcheck_judge", "capcheck_c"];

fn main() {
    println!("cargo:rerun-if-env-changed=CAPCHECK_LIB");
    println!("cargo:rerun-if-env-changed=PKG_CONFIG_PATH");
    let folder = folder();
    println!("cargo:rustc-link-search=native={}", folder.display());
    for library in LIBRARIES {
        println!("cargo:rerun-if-changed={}", archive(&folder, library).display());
        println!("cargo:rustc-link-lib=static={library}");
    }
}

fn archive(folder: &Path, library: &str) -> PathBuf {
    folder.join(format!("lib{library}.a"))
}

fn folder() -> PathBuf {
    let given = env::var("CAPCHECK_LIB").unwrap_or_default();
    let installed = PathBuf::from(env::var("CARGO_MANIFEST_DIR").unwrap_or_default()).join("../../../lib");
    let found = if !given.is_empty() {
        Some(given.into())
    } else if archive(&installed, LIBRARIES[0]).exists() {
        fs::canonicalize(installed).ok()
    } else {
        by_pkg_config()
    };
    let has_all = |folder: &PathBuf| LIBRARIES.iter().all(|library| archive(folder, library).exists());
    found.filter(has_all).unwrap_or_else(|| {
        eprintln!(
            "capcheck: libcapcheck_judge.a and libcapcheck_c.a weren't found: set CAPCHECK_LIB to their folder, \
                   or PKG_CONFIG_PATH to that of capcheck_judge.pc"
        );
        exit(1)
    })
}

fn by_pkg_config() -> Option<PathBuf> {
    let said = Command::new("pkg-config").args(["--variable=libdir", "capcheck_judge"]).output().ok()?;
    let folder = String::from_utf8(said.stdout).ok()?;
    (said.status.success() && !folder.trim().is_empty()).then(|| folder.trim().into())
}
