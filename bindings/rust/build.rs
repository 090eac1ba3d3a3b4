//! Finds libcapi.a: in the folder that LICHENOAR_LIB_DIR names, or where the repository builds it, or where pkg-config knows it.

use std::env;
use std::path::PathBuf;
use std::process::{exit, Command};

const ARCHIVE: &str = "libcapi.a";

fn refuse(words: String) -> ! {
    eprintln!("lichenoar: {words}");
    exit(1)
}

fn variable(name: &str) -> String {
    env::var(name).unwrap_or_default()
}

/// Whether the build is for the processor that it runs on.
fn is_for_this_processor() -> bool {
    variable("HOST").starts_with(&variable("CARGO_CFG_TARGET_ARCH"))
}

/// The repository's folders whose archive is for the processor that this build is for; none outside of the repository.
fn folders_of_the_repository() -> Vec<PathBuf> {
    let manifest = PathBuf::from(variable("CARGO_MANIFEST_DIR"));
    let Some(root) = manifest.ancestors().find(|a| a.join("bindings/rust/build.rs").is_file()) else { return Vec::new() };
    let mut out = Vec::new();
    if is_for_this_processor() {
        out.push(root.join("target/host"));
    }
    if variable("CARGO_CFG_TARGET_ARCH") == "x86_64" {
        out.push(root.join("target/staticlib"));
    }
    out
}

/// The library folder of pkg-config's lichenoar, of this version or a later one. There is a file for each processor, so that it is asked for this one alone.
fn folder_of_pkg_config() -> Option<PathBuf> {
    if !is_for_this_processor() {
        return None;
    }
    let program = env::var_os("PKG_CONFIG").unwrap_or_else(|| "pkg-config".into());
    let said = |words: &[&str]| Command::new(&program).args(words).arg("lichenoar").output().ok().filter(|o| o.status.success());
    said(&[&format!("--atleast-version={}", variable("CARGO_PKG_VERSION"))])?;
    let folder = String::from_utf8(said(&["--variable=libdir"])?.stdout).ok()?;
    // pkg-config writes a blank of the path as a backslash and a blank
    Some(PathBuf::from(folder.trim().replace("\\ ", " ")))
}

fn folder() -> PathBuf {
    let holds = |folder: &PathBuf| folder.join(ARCHIVE).is_file();
    if let Some(named) = env::var_os("LICHENOAR_LIB_DIR").map(PathBuf::from) {
        if holds(&named) {
            return named;
        }
        refuse(format!("LICHENOAR_LIB_DIR is {}, which holds no {ARCHIVE}", named.display()));
    }
    match folders_of_the_repository().into_iter().find(holds).or_else(|| folder_of_pkg_config().filter(holds)) {
        Some(found) => found,
        None => refuse(format!(
            "there is no {ARCHIVE} for {}. Where Lichenoar is installed, set LICHENOAR_LIB_DIR to the folder that holds it, or PKG_CONFIG_PATH to that of \
             lichenoar.pc. In its repository, tools/host/archive.sh writes target/staticlib/{ARCHIVE} (x86-64) and \
             target/host/{ARCHIVE} (the processor of the machine that it runs on)",
            variable("CARGO_CFG_TARGET_ARCH")
        )),
    }
}

fn main() {
    for name in ["LICHENOAR_LIB_DIR", "PKG_CONFIG", "PKG_CONFIG_PATH", "PKG_CONFIG_LIBDIR"] {
        println!("cargo:rerun-if-env-changed={name}");
    }
    let folder = folder();
    println!("cargo:rerun-if-changed={}", folder.join(ARCHIVE).display());
    println!("cargo:rustc-link-search=native={}", folder.display());
    println!("cargo:rustc-link-lib=static=capi");
    // the C library's mathematics, which archives of older kits asked for
    println!("cargo:rustc-link-lib=m");
}
