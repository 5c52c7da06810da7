//! Links the static library `liblight_c.a` of the proved functions, which Rattle makes and not cargo: finds it, and
//! asks it for its version.

use std::env;
use std::path::{Path, PathBuf};
use std::process::Command;

/// Names the folder of the static library, where that is not the repository's `target/staticlib`.
const FOLDER: &str = "COLTOCTOBER_STATICLIB";
const REMEDY: &str = "run `tools/archives light_c` in the root of this crate's repository";

/// Prints the version of the library that it is linked with.
const ASK: &str = r#"
unsafe extern "C" {
    safe fn light_version() -> u32;
}
fn main() {
    print!("{}", light_version());
}
"#;

/// A variable that cargo sets.
fn set(variable: &str) -> String {
    env::var(variable).unwrap_or_else(|why| panic!("cargo sets {variable}: {why}"))
}

fn machine() -> Result<(), String> {
    match (&*set("CARGO_CFG_TARGET_ARCH"), &*set("CARGO_CFG_TARGET_OS")) {
        ("x86_64", "linux") => Ok(()),
        (arch, system) => {
            Err(format!("light_tree is for x86-64 Linux, as its library is, and this build is for {arch} and {system}"))
        }
    }
}

fn archive() -> Result<PathBuf, String> {
    let usual = || Path::new(&set("CARGO_MANIFEST_DIR")).join("../../target/staticlib");
    let folder = env::var_os(FOLDER).map_or_else(usual, PathBuf::from);
    let archive = folder.join("liblight_c.a");
    println!("cargo::rerun-if-changed={}", archive.display());
    archive.canonicalize().map_err(|_| {
        let folder = folder.canonicalize().unwrap_or(folder);
        format!("{}/liblight_c.a is absent: {REMEDY}, or set {FOLDER} to the folder that has it", folder.display())
    })
}

/// The version that the library in a folder tells, by a program that is linked with it.
fn version_told(folder: &Path) -> Option<u32> {
    let out = PathBuf::from(set("OUT_DIR"));
    let (source, program) = (out.join("version.rs"), out.join("version"));
    std::fs::write(&source, ASK).ok()?;
    let mut compile = Command::new(set("RUSTC"));
    compile.args(["--edition", "2024", "-l", "static=light_c", "-L"]).arg(folder).arg(&source).arg("-o").arg(&program);
    if let Some(linker) = env::var_os("RUSTC_LINKER") {
        compile.arg("-C").arg(format!("linker={}", linker.display()));
    }
    if !compile.status().ok()?.success() {
        return None;
    }
    String::from_utf8(Command::new(&program).output().ok()?.stdout).ok()?.parse().ok()
}

/// Major and minor part must be the crate's own: then functions and layouts are.
fn version(archive: &Path, folder: &Path) -> Result<(), String> {
    if set("HOST") != set("TARGET") {
        println!("cargo::warning=the version of liblight_c.a is not asked for, since the build is for another machine");
        return Ok(());
    }
    let own = format!("{}.{}", set("CARGO_PKG_VERSION_MAJOR"), set("CARGO_PKG_VERSION_MINOR"));
    let told = version_told(folder).map(|number| format!("{}.{}", number / 10_000, number / 100 % 100));
    let archive = archive.display();
    match told {
        Some(told) if told == own => Ok(()),
        Some(told) => Err(format!("{archive} has version {told}, and this light_tree needs {own}: {REMEDY}")),
        None => Err(format!("{archive} tells no version, so it is not of light_tree {own}: {REMEDY}")),
    }
}

fn link() -> Result<(), String> {
    println!("cargo::rerun-if-env-changed={FOLDER}");
    machine()?;
    let archive = archive()?;
    let folder = archive.parent().ok_or("a file stands in a folder")?;
    version(&archive, folder)?;
    println!("cargo::rustc-link-search=native={}", folder.display());
    println!("cargo::rustc-link-lib=static=light_c");
    Ok(())
}

fn main() {
    if let Err(why) = link() {
        println!("cargo::error={why}");
    }
}
