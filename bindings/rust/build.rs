//! Says where the library is.
//!
//! `TIKEBURO_LIB` names a folder that has either `libtikeburo.a`, as `make install` in
//! `bindings/c` installs it, or the library that `rt lib` writes and the two of the kit that it
//! needs. Without it they are looked for where `rt lib` writes the library in the checkout that
//! this crate lies in, and in the kit of the `rt` that is on the path; and else where `pkg-config`
//! knows of a `tikeburo`.
//!
//! Where documentation is built on docs.rs, which sets `DOCS_RS`, nothing is linked.

use std::env;
use std::path::{Path, PathBuf};
use std::process::Command;

fn main() {
    println!("cargo:rerun-if-changed=build.rs");
    for name in ["TIKEBURO_LIB", "DOCS_RS", "PKG_CONFIG_PATH"] {
        println!("cargo:rerun-if-env-changed={name}");
    }
    if env::var_os("DOCS_RS").is_some() {
        return;
    }
    let folders = folders();
    for folder in &folders {
        println!("cargo:rustc-link-search=native={}", folder.display());
    }
    if find("tikeburo", &folders).is_some() {
        return link("tikeburo", &folders);
    }
    for library in ["tikeburo_c", "libc_c", "os_c"] {
        link(library, &folders);
    }
}

/// Where the library may be.
fn folders() -> Vec<PathBuf> {
    if let Some(folder) = env::var_os("TIKEBURO_LIB") {
        return vec![folder.into()];
    }
    let built: Vec<_> = [checkout(), kit()].into_iter().flatten().collect();
    match installed() {
        Some(folder) if find("tikeburo_c", &built).is_none() => vec![folder],
        _ => built,
    }
}

/// The first file of this library.
fn find(library: &str, folders: &[PathBuf]) -> Option<PathBuf> {
    let file = format!("lib{library}.a");
    let mut paths = folders.iter().map(|folder| folder.join(&file));
    paths.find(|path| path.exists())
}

/// Links a library. Where it isn't found, the build goes on, since a check needs none.
fn link(library: &str, folders: &[PathBuf]) {
    println!("cargo:rustc-link-lib=static={library}");
    if let Some(path) = find(library, folders) {
        println!("cargo:rerun-if-changed={}", path.display());
        return;
    }
    let file = format!("lib{library}.a");
    println!("cargo:warning={file} isn't found: {}", advice(library));
    for folder in folders {
        println!("cargo:rerun-if-changed={}", folder.join(&file).display());
    }
}

/// How a library is made, or found.
fn advice(library: &str) -> &'static str {
    if library == "tikeburo_c" {
        "make it by `rt lib` in crates/tikeburo_c, or set TIKEBURO_LIB to its folder"
    } else {
        "it comes with the toolchain: put its `rt` on the path, or set TIKEBURO_LIB to its folder"
    }
}

/// Where `rt lib` writes the library.
fn checkout() -> Option<PathBuf> {
    let here = PathBuf::from(env::var_os("CARGO_MANIFEST_DIR")?);
    Some(here.ancestors().nth(2)?.join("crates/tikeburo_c/out"))
}

/// The folder of the kit's C libraries, which lies beside that of `rt`.
fn kit() -> Option<PathBuf> {
    let path = env::var_os("PATH")?;
    let rt = env::split_paths(&path)
        .map(|folder| folder.join("rt"))
        .find(|rt| rt.is_file())?;
    let rt = rt.canonicalize().ok()?;
    rt.parent().and_then(Path::parent).map(|kit| kit.join("c"))
}

/// The folder of the library that is installed.
fn installed() -> Option<PathBuf> {
    let mut command = Command::new("pkg-config");
    let output = command.args(["--variable=libdir", "tikeburo"]).output();
    let folder = String::from_utf8(output.ok()?.stdout).ok()?;
    let folder = PathBuf::from(folder.trim_end());
    folder.join("libtikeburo.a").exists().then_some(folder)
}
