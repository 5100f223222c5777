//! Finds the C library: in the folder that `WAX_LIB_DIR` names, or else as `pkg-config` says.

use std::env;
use std::path::{Path, PathBuf};
use std::process::Command;

fn main() {
    println!("cargo:rerun-if-env-changed=WAX_LIB_DIR");
    println!("cargo:rerun-if-env-changed=PKG_CONFIG_PATH");
    match env::var_os("WAX_LIB_DIR") {
        Some(folder) => link_from(&PathBuf::from(folder)),
        None => link_as_installed(),
    }
}

/// Links the library of a folder: the static one if it is there.
fn link_from(folder: &Path) {
    let (archive, shared) = (folder.join("libwax.a"), folder.join("libwax.so"));
    let kind = if archive.exists() { "static" } else { "dylib" };
    assert!(
        archive.exists() || shared.exists(),
        "there is no C library wax in {}",
        folder.display()
    );
    println!("cargo:rerun-if-changed={}", archive.display());
    println!("cargo:rustc-link-search=native={}", folder.display());
    println!("cargo:rustc-link-lib={kind}=wax");
}

fn link_as_installed() {
    let flags = pkg_config().unwrap_or_else(|why| {
        panic!("the C library wax isn't found ({why}): install it, or set WAX_LIB_DIR to the folder with libwax.a")
    });
    for flag in flags.split_whitespace() {
        if let Some(folder) = flag.strip_prefix("-L") {
            println!("cargo:rustc-link-search=native={folder}");
        } else if let Some(name) = flag.strip_prefix("-l") {
            println!("cargo:rustc-link-lib={name}");
        }
    }
}

/// Returns the flags that link the library.
fn pkg_config() -> Result<String, String> {
    let output = Command::new("pkg-config")
        .args(["--libs", "wax"])
        .output()
        .map_err(|error| format!("pkg-config: {error}"))?;
    let text = |bytes| String::from_utf8_lossy(bytes).trim().to_string();
    if output.status.success() {
        Ok(text(&output.stdout))
    } else {
        Err(text(&output.stderr))
    }
}
