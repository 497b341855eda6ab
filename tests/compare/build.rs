//! Links the archives of the proved crates, which `make archives` leaves in build/. With the feature
//! `old` also those of an earlier build, their calls renamed, and src/library.rs under the new names.

use std::{env, fs, path::Path, process::Command};

const ARCHIVES: [&str; 2] = ["probe", "runnelpin"];

fn main() {
    let here = env::var("CARGO_MANIFEST_DIR").unwrap();
    let build = Path::new(&here).join("../../build");
    println!("cargo:rustc-link-search=native={}", build.display());
    for name in ARCHIVES {
        let archive = build.join(format!("lib{name}.a"));
        println!("cargo:rustc-link-lib=static={name}");
        println!("cargo:rerun-if-changed={}", archive.display());
    }
    if env::var("CARGO_FEATURE_OLD").is_ok() {
        let old = env::var("OLD").expect("OLD: the path of the old librunnelpin.a");
        let folder = Path::new(&old).parent().unwrap();
        rename(folder, Path::new(&env::var("OUT_DIR").unwrap()));
        println!("cargo:rerun-if-env-changed=OLD");
    }
}

/// Every name of the old archives gets `old_` before it, but for the two functions of C that they call.
fn rename(from: &Path, to: &Path) {
    println!("cargo:rustc-link-search=native={}", to.display());
    for name in ARCHIVES {
        let archive = from.join(format!("lib{name}.a"));
        let renamed = to.join(format!("libold_{name}.a"));
        objcopy(&["--prefix-symbols=old_"], &archive, &renamed);
        let kept = ["memcpy", "memset"].map(|call| format!("--redefine-sym=old_{call}={call}"));
        objcopy(&[&kept[0], &kept[1]], &renamed, &renamed);
        println!("cargo:rustc-link-lib=static=old_{name}");
        println!("cargo:rerun-if-changed={}", archive.display());
    }
    let text = fs::read_to_string("src/library.rs").unwrap();
    let text = ARCHIVES
        .iter()
        .fold(text.replace("//!", "//"), |text, name| {
            text.replace(&format!("{name}_"), &format!("old_{name}_"))
        });
    fs::write(to.join("old.rs"), text).unwrap();
    println!("cargo:rerun-if-changed=src/library.rs");
}

fn objcopy(words: &[&str], from: &Path, to: &Path) {
    let ended = Command::new("objcopy")
        .args(words)
        .arg(from)
        .arg(to)
        .status();
    assert!(ended.expect("objcopy").success(), "{}", from.display());
}
