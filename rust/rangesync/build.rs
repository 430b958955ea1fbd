//! Links the library: the file that `RANGESYNC_LIBRARY` names, static or shared, or the static one that `c/build` made
//! in this repository.

use std::env;
use std::path::PathBuf;
use std::process::exit;

fn main() {
    println!("cargo:rerun-if-env-changed=RANGESYNC_LIBRARY");
    let crate_folder = PathBuf::from(env::var_os("CARGO_MANIFEST_DIR").expect("cargo sets it"));
    let file = match env::var_os("RANGESYNC_LIBRARY") {
        Some(named) => PathBuf::from(named),
        None => crate_folder.join("../../c/out/librangesync.a"),
    };
    let kind = match file.file_name().and_then(|name| name.to_str()) {
        Some("librangesync.a") => "static",
        Some("librangesync.so") => "dylib",
        _ => fail("RANGESYNC_LIBRARY names neither a librangesync.a nor a librangesync.so"),
    };
    let file = file.canonicalize().unwrap_or_else(|_| {
        fail(&format!("there is no {}: c/build makes it, and RANGESYNC_LIBRARY may name another", file.display()))
    });
    let folder = file.parent().expect("a file is in a folder").display().to_string();
    println!("cargo:rerun-if-changed={}", file.display());
    println!("cargo:rustc-link-search=native={folder}");
    println!("cargo:rustc-link-lib={kind}=rangesync");
    if kind == "dylib" {
        // The tests of this crate find it there.
        println!("cargo:rustc-link-arg=-Wl,-rpath,{folder}");
    }
}

fn fail(why: &str) -> ! {
    eprintln!("rangesync: {why}");
    exit(1)
}
