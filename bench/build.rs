//! Finds the archive that `rt lib` makes in crates/c_api, and the two peers (packages libroaring-dev and libsqlite3-dev). Where
//! PLANT_SEARCH_BEFORE names the archive of landing 12, its search and today's are linked apart too, to be timed side by side.
use std::path::Path;
use std::process::Command;

fn main() {
    let here = std::env::var("CARGO_MANIFEST_DIR").unwrap();
    let folder = Path::new(&here).join("../crates/c_api/out");
    let archive = folder.join("libc_api.a");
    println!("cargo:rerun-if-changed={}", archive.display());
    if !archive.exists() {
        panic!("there is no crates/c_api/out/libc_api.a: run `rt lib` in crates/c_api first");
    }
    println!("cargo:rustc-link-search=native={}", folder.display());
    println!("cargo:rustc-link-lib=static=c_api");
    println!("cargo:rustc-link-lib=roaring");
    println!("cargo:rustc-link-lib=sqlite3");
    println!("cargo:rustc-check-cfg=cfg(before)");
    println!("cargo:rerun-if-env-changed=PLANT_SEARCH_BEFORE");
    if let Ok(before) = std::env::var("PLANT_SEARCH_BEFORE") {
        link_apart(&before, "before");
        link_apart(&archive.display().to_string(), "now");
        println!("cargo:rustc-cfg=before");
    }
}

/// Links the search of an archive under another name, with all that it needs out of sight. Each function begins at a multiple of
/// 64 bytes: the same code of two archives takes the same time only where it lies alike.
fn link_apart(archive: &str, name: &str) {
    println!("cargo:rerun-if-changed={archive}");
    let object = format!("{}/{name}.o", std::env::var("OUT_DIR").unwrap());
    run("ld", &["-r", "-u", "plant_search_search", "-o", &object, archive]);
    run("objcopy", &["--keep-global-symbol=plant_search_search", "--set-section-alignment", ".text.*=64", &object]);
    run("objcopy", &["--redefine-sym", &format!("plant_search_search=plant_search_search_{name}"), &object]);
    println!("cargo:rustc-link-arg={object}");
}

fn run(program: &str, words: &[&str]) {
    let status = Command::new(program).args(words).status();
    assert!(status.is_ok_and(|status| status.success()), "{program} did not work");
}
