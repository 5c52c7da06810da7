//! What the build script tells cargo: of the library as it is, of another machine, and of a folder that has no library,
//! one that tells no version, or one of another version. And what is packaged.

use std::path::{Path, PathBuf};
use std::process::Command;

const HERE: &str = env!("CARGO_MANIFEST_DIR");

fn succeeds(command: &mut Command) -> String {
    let ended = command.output().unwrap();
    assert!(ended.status.success(), "{}", String::from_utf8_lossy(&ended.stderr));
    String::from_utf8(ended.stdout).unwrap()
}

fn folder(name: &str) -> PathBuf {
    let folder = Path::new(env!("CARGO_TARGET_TMPDIR")).join("build_script").join(name);
    std::fs::create_dir_all(&folder).unwrap();
    folder
}

/// The folder of a library with this function alone.
fn library(name: &str, function: &str) -> PathBuf {
    let folder = folder(name);
    let (source, library) = (folder.join("light_c.rs"), folder.join("liblight_c.a"));
    std::fs::write(&source, function).unwrap();
    let compile = ["--edition", "2024", "--crate-type", "staticlib", "-C", "panic=abort", "-o"];
    succeeds(Command::new("rustc").args(compile).arg(library).arg(source));
    folder
}

/// The build script as a program.
fn script() -> PathBuf {
    let script = folder("script").join("build_script");
    succeeds(Command::new("rustc").args(["--edition", "2024", "-o"]).arg(&script).arg(format!("{HERE}/build.rs")));
    script
}

/// The lines that it tells cargo, with the library in a folder, or in the usual one, and other variables set.
fn told(script: &Path, library: Option<&Path>, others: &[(&str, &str)]) -> Vec<String> {
    let mut run = Command::new(script);
    run.envs([("CARGO_MANIFEST_DIR", HERE), ("CARGO_CFG_TARGET_ARCH", "x86_64"), ("CARGO_CFG_TARGET_OS", "linux")]);
    run.envs([("HOST", "x86_64-unknown-linux-gnu"), ("TARGET", "x86_64-unknown-linux-gnu"), ("RUSTC", "rustc")]);
    run.envs([("CARGO_PKG_VERSION_MAJOR", "0"), ("CARGO_PKG_VERSION_MINOR", "1")]).env("OUT_DIR", folder("out"));
    run.env_remove("COLTOCTOBER_STATICLIB").envs(library.map(|library| ("COLTOCTOBER_STATICLIB", library)));
    let told = succeeds(run.envs(others.iter().copied()));
    told.lines().filter(|line| !line.starts_with("cargo::rerun-if-")).map(str::to_string).collect()
}

/// The one line of an error.
fn error(lines: Vec<String>) -> String {
    assert_eq!(lines.len(), 1, "{lines:?}");
    lines[0].strip_prefix("cargo::error=").unwrap().to_string()
}

#[test]
fn build_script() {
    let script = script();
    let usual = Path::new(HERE).join("../../target/staticlib").canonicalize().unwrap();
    let search = format!("cargo::rustc-link-search=native={}", usual.display());
    assert_eq!(told(&script, None, &[]), [&search, "cargo::rustc-link-lib=static=light_c"]);

    let other_machine = error(told(&script, None, &[("CARGO_CFG_TARGET_ARCH", "aarch64")]));
    assert!(other_machine.ends_with("is for x86-64 Linux, as its library is, and this build is for aarch64 and linux"));

    let absent = folder("absent");
    let missing = format!("{}/liblight_c.a is absent: run `tools/archives light_c` in", absent.display());
    assert!(error(told(&script, Some(&absent), &[])).starts_with(&missing));

    let silent = library("silent", "#[unsafe(no_mangle)] pub extern \"C\" fn light_sample() {}");
    assert!(error(told(&script, Some(&silent), &[])).contains("liblight_c.a tells no version"));

    let version = |number| format!("#[unsafe(no_mangle)] pub extern \"C\" fn light_version() -> u32 {{ {number} }}");
    let newer = library("newer", &version(10_203));
    let refused = error(told(&script, Some(&newer), &[]));
    assert!(refused.contains("liblight_c.a has version 1.2, and this light_tree needs 0.1: run"), "{refused}");
    // a patch changes no function and no layout
    assert_eq!(told(&script, Some(&library("patched", &version(107))), &[]).len(), 2);

    // a library for another machine cannot be run here
    let crossed = told(&script, Some(&newer), &[("TARGET", "x86_64-unknown-linux-musl")]);
    assert!(crossed.len() == 3 && crossed[0].starts_with("cargo::warning="), "{crossed:?}");
}

/// All that is compiled or read is packaged, and nothing that needs files from outside of the package.
#[test]
fn package() {
    let list = ["package", "--list", "--allow-dirty", "--offline", "--manifest-path"];
    let cargo = std::env::var_os("CARGO").unwrap();
    let listed = succeeds(Command::new(cargo).args(list).arg(format!("{HERE}/Cargo.toml")));
    let listed: Vec<&str> = listed.lines().collect();
    for name in ["Cargo.toml", "LICENSE", "NOTICE", "README.md", "build.rs", "examples/room.rs", "tests/cases.rs"] {
        assert!(listed.contains(&name), "no {name} in {listed:?}");
    }
    let sources = std::fs::read_dir(format!("{HERE}/src")).unwrap().map(|entry| entry.unwrap().file_name());
    sources.for_each(|name| assert!(listed.contains(&&*format!("src/{}", name.display())), "no {name:?}"));
    for name in listed.iter().filter(|name| name.ends_with(".rs")) {
        let text = std::fs::read_to_string(format!("{HERE}/{name}")).unwrap();
        assert!(!text.contains("include_str!(\"../../"), "{name} reads what is not packaged");
    }
}
