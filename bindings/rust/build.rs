// Links libbalanced from the folder that BALANCED_LIB_DIR names; else from target/lib of the repository, where it was made there;
// else from the folder where pkg-config finds it installed. The static library, or the shared one where the folder has no other.
use std::env;
use std::path::{Path, PathBuf};
use std::process::Command;

const KINDS: [(&str, &str); 2] = [("static", "libbalanced.a"), ("dylib", "libbalanced.so")];

/// How to link the library of a folder, and its file.
fn library(folder: &Path) -> Option<(&'static str, PathBuf)> {
    KINDS
        .into_iter()
        .map(|(kind, file)| (kind, folder.join(file)))
        .find(|(_, file)| file.is_file())
}

/// Where the library is installed, of this crate's version or a later one.
fn installed() -> Option<PathBuf> {
    let program = env::var_os("PKG_CONFIG").unwrap_or("pkg-config".into());
    let version = env!("CARGO_PKG_VERSION");
    let asked = Command::new(program)
        .args(["--variable=libdir", &format!("balanced >= {version}")])
        .output()
        .ok()?;
    let folder = String::from_utf8(asked.stdout).ok()?;
    (asked.status.success() && !folder.trim().is_empty()).then(|| PathBuf::from(folder.trim()))
}

/// The folders to look into, the first that has the library.
fn folders() -> Vec<PathBuf> {
    if let Some(folder) = env::var_os("BALANCED_LIB_DIR") {
        return vec![PathBuf::from(folder)];
    }
    let here = PathBuf::from(env::var_os("CARGO_MANIFEST_DIR").expect("cargo sets CARGO_MANIFEST_DIR"));
    [here.join("../../target/lib")].into_iter().chain(installed()).collect()
}

fn main() {
    for name in ["BALANCED_LIB_DIR", "PKG_CONFIG", "PKG_CONFIG_PATH", "PKG_CONFIG_LIBDIR"] {
        println!("cargo:rerun-if-env-changed={name}");
    }
    let folders = folders();
    let Some((folder, (kind, file))) = folders.iter().find_map(|folder| Some((folder, library(folder)?))) else {
        panic!(
            "there is no libbalanced.a or libbalanced.so in {folders:?}: run bindings/rust/build.sh or make install, or set \
             BALANCED_LIB_DIR to the library's folder"
        );
    };
    println!("cargo:rerun-if-changed={}", file.display());
    println!("cargo:rustc-link-search=native={}", folder.display());
    println!("cargo:rustc-link-lib={kind}=balanced");
}
