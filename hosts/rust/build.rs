//! Links the archive: libnavd.a of a package, in native/ or in its lib/, and else libnav_ffi.a where `rt lib` leaves it. NAVD_LIBRARY_DIR names
//! another folder, with either of the two. An archive of a package has the calls of navd_world.h in it; beside another one they are compiled here, by CC.
use std::env;
use std::path::Path;
use std::process::Command;

fn is_there(folder: &str, name: &str) -> bool {
    Path::new(&format!("{folder}/lib{name}.a")).exists()
}

/// Whether an archive names the calls of navd_world.h.
fn has_worlds(archive: &str) -> bool {
    let name = b"navd_world_create";
    std::fs::read(archive).map_or(false, |bytes| bytes.windows(name.len()).any(|part| part == name))
}

fn run(tool: &str, words: &[&str]) {
    let ended = Command::new(tool).args(words).status().unwrap_or_else(|error| panic!("{tool}: {error}"));
    assert!(ended.success(), "{tool} failed on {words:?}");
}

/// Compiles hosts/world/navd_world.c into an archive of its own.
fn build_worlds(here: &str) {
    let (source, include, out) = (format!("{here}/../world/navd_world.c"), format!("{here}/../../include"), env::var("OUT_DIR").unwrap());
    let (object, archive) = (format!("{out}/navd_world.o"), format!("{out}/libnavd_world.a"));
    run(&env::var("CC").unwrap_or_else(|_| "cc".into()), &["-std=c11", "-O2", "-fPIC", "-I", &include, "-c", &source, "-o", &object]);
    run(&env::var("AR").unwrap_or_else(|_| "ar".into()), &["crs", &archive, &object]);
    println!("cargo:rustc-link-search=native={out}");
    println!("cargo:rustc-link-lib=static=navd_world");
    println!("cargo:rerun-if-changed={source}");
    println!("cargo:rerun-if-changed={include}");
}

fn main() {
    let here = env::var("CARGO_MANIFEST_DIR").unwrap();
    let packaged = ["native", "../../lib"].map(|folder| format!("{here}/{folder}")).into_iter().find(|folder| is_there(folder, "navd"));
    let folder = env::var("NAVD_LIBRARY_DIR").ok().or(packaged).unwrap_or_else(|| format!("{here}/../../crates/nav_ffi/out"));
    let name = if is_there(&folder, "navd") { "navd" } else { "nav_ffi" };
    let target = ["ARCH", "OS"].map(|part| env::var(format!("CARGO_CFG_TARGET_{part}")).unwrap());
    if name == "navd" && target != ["x86_64", "linux"] {
        panic!("the archive in {folder} is for x86_64 Linux");
    }
    if !has_worlds(&format!("{folder}/lib{name}.a")) {
        build_worlds(&here);
    }
    println!("cargo:rustc-link-search=native={folder}");
    println!("cargo:rustc-link-lib=static={name}");
    println!("cargo:rerun-if-changed={folder}/lib{name}.a");
    println!("cargo:rerun-if-changed=build.rs");
    println!("cargo:rerun-if-env-changed=NAVD_LIBRARY_DIR");
}
