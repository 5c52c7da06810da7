//! Links the proved functions, and prepares the reference files for `src/oracle/reference`. The archives are
//! made by Rattle, not by cargo.

use std::path::{Path, PathBuf};

#[path = "src/oracle/substitution.rs"]
mod substitution;

use substitution::*;

const ARCHIVES: &str = "COLTOCTOBER_STATICLIB";
const REFERENCE: &str = "COLTOCTOBER_REFERENCE";

fn folder(variable: &str, usual: &str) -> PathBuf {
    println!("cargo:rerun-if-env-changed={variable}");
    std::env::var_os(variable).map_or_else(|| PathBuf::from(usual), PathBuf::from)
}

fn stop(why: String) -> ! {
    eprintln!("{why}");
    std::process::exit(1);
}

fn link(folder: &Path, name: &str) {
    let archive = folder.join(format!("lib{name}.a"));
    println!("cargo:rerun-if-changed={}", archive.display());
    let Ok(archive) = archive.canonicalize() else {
        stop(format!("{} is absent: `tools/archives {name}`, run in the repository's root, makes it", archive.display()));
    };
    println!("cargo:rustc-link-search=native={}", archive.parent().unwrap().display());
    println!("cargo:rustc-link-lib=static={name}");
}

fn substitute(text: &str, pairs: &[Pair]) -> String {
    pairs.iter().fold(text.to_string(), |text, (from, to)| {
        if !text.contains(from) {
            stop(format!("the reference has no {from:?}: src/oracle/substitution.rs does not fit it"));
        }
        text.replace(from, to)
    })
}

/// The names of the methods that the text calls.
fn methods(text: &str) -> impl Iterator<Item = &str> {
    text.split('.').skip(1).filter_map(|after| {
        let name = &after[..after.find(|c: char| !c.is_alphanumeric() && c != '_').unwrap_or(after.len())];
        let called = after[name.len()..].starts_with('(') || after[name.len()..].starts_with("::");
        (called && name.starts_with(|c: char| c.is_alphabetic())).then_some(name)
    })
}

/// The text of a function with no other inside, from its first line to the brace that ends it.
fn function<'a>(text: &'a str, head: &str) -> &'a str {
    let Some(start) = text.find(head) else { stop(format!("the reference has no {head:?}")) };
    let end = text[start..].find("\n}").map_or(text.len(), |end| start + end + 2);
    &text[start..end]
}

/// Writes a reference file's text as it is compiled on either side.
fn both(name: &str, text: &str, borrowed: &[&[Pair]], oracle: &[&[Pair]]) {
    let native = borrowed.iter().fold(text.to_string(), |text, pairs| substitute(&text, pairs));
    let oracle = oracle.iter().fold(native.clone(), |text, pairs| substitute(&text, pairs));
    if let Some(name) = methods(&oracle).find(|name| !METHODS.contains(name)) {
        stop(format!("the oracle calls {name}, which src/oracle/substitution.rs does not know"));
    }
    write(&format!("native_{name}.rs"), &native);
    write(&format!("oracle_{name}.rs"), &oracle);
}

fn write(name: &str, text: &str) {
    std::fs::write(PathBuf::from(std::env::var_os("OUT_DIR").unwrap()).join(name), text).unwrap();
}

/// The text without the part from the first line to the second.
fn cut(text: &str, [from, to]: [&str; 2]) -> String {
    match (text.find(from), text.find(to)) {
        (Some(from), Some(to)) if from < to => text[..from].to_string() + &text[to..],
        _ => stop(format!("the reference has no {from:?} before {to:?}")),
    }
}

fn prepare(bounds: &str, bvh: &str, sampler: &str, packed: &str, sampling: &str) {
    both("light_bounds", bounds, &[BORROWED, LOST], &[MARKS, LIBRARY]);
    both("light_bvh", bvh, &[BVH_BORROWED, BVH_LOST, BVH_PAST], &[BVH_MARKS, BVH_LIBRARY]);
    let Some(end) = sampler.find(SAMPLER_END) else { stop(format!("the reference has no {SAMPLER_END:?}")) };
    both("light_sampler", &sampler[..end], &[SAMPLER_BORROWED], &[SAMPLER_MARKS, SAMPLER_LIBRARY]);
    let packed = cut(packed, PACKED_CUT);
    both("packed_bvh", &packed, &[PACKED_BORROWED, PACKED_BOX], &[PACKED_MARKS, PACKED_LIBRARY]);
    write("angle_between.rs", &substitute(function(sampling, "pub fn angle_between("), BY_VALUE));
}

fn main() {
    let archives = folder(ARCHIVES, "../../target/staticlib");
    ["light_c", "parts_c"].iter().for_each(|name| link(&archives, name));

    println!("cargo:rustc-check-cfg=cfg(reference)");
    let files = folder(REFERENCE, "../../../shared/docs");
    let read = |name: &str| {
        let path = files.join(name);
        println!("cargo:rerun-if-changed={}", path.display());
        std::fs::read_to_string(path)
    };
    let bounds = read("src--src--gpu--flat--light_bounds.rs.txt");
    let bvh = read("src--src--gpu--flat--light_bvh.rs.txt");
    let sampler = read("src--src--gpu--webgpu--light_sampler.rs.txt");
    let packed = read("src--src--gpu--webgpu--light_bvh.rs.txt");
    let sampling = read("src--src--util--sampling--sampling.rs.txt");
    if let (Ok(bounds), Ok(bvh), Ok(sampler), Ok(packed), Ok(sampling)) = (bounds, bvh, sampler, packed, sampling) {
        prepare(&bounds, &bvh, &sampler, &packed, &sampling);
        println!("cargo:rustc-cfg=reference");
        println!("cargo:rustc-env=REFERENCE_FILES={}", files.canonicalize().unwrap().display());
    }
}
