//! Finds the library. It looks in the folder that KOVSHENUL_LIB_DIR names, and then in the crate's own `lib`. Then
//! it looks in the `lib` of the prefix in which the crate is installed, and at last it asks pkg-config. If the
//! library is nowhere, the crate can still be checked and documented, and a warning says what is missing.
use std::env;
use std::path::{Path, PathBuf};
use std::process::{exit, Command};

const ARCHIVE: &str = "libkovshenul.a";

fn main() {
    println!("cargo:rerun-if-changed=build.rs");
    println!("cargo:rerun-if-env-changed=KOVSHENUL_LIB_DIR");
    println!("cargo:rerun-if-env-changed=PKG_CONFIG_PATH");
    println!("cargo:rustc-link-lib=static=kovshenul");
    let own = PathBuf::from(env::var_os("CARGO_MANIFEST_DIR").unwrap_or_default());
    let folder = match env::var_os("KOVSHENUL_LIB_DIR").map(PathBuf::from) {
        Some(named) => Some(with_archive(named.clone()).unwrap_or_else(|| {
            eprintln!("KOVSHENUL_LIB_DIR is {}, where no {ARCHIVE} is", named.display());
            exit(1)
        })),
        None => with_archive(own.join("lib"))
            .or_else(|| with_archive(lib_of_prefix(&own)?))
            .or_else(|| with_archive(told_by_pkg_config()?)),
    };
    match &folder {
        Some(folder) => println!("cargo:rustc-link-search=native={}", folder.display()),
        None => println!(
            "cargo:warning=no {ARCHIVE}: KOVSHENUL_LIB_DIR is not set, {} has no lib/{ARCHIVE}, and pkg-config knows \
             no kovshenul. 'cargo check' and 'cargo doc' do without, but what links will fail. bindings/build makes it in \
             bindings/out: set KOVSHENUL_LIB_DIR to that folder",
            own.display()
        ),
    }
    let watched = folder.unwrap_or_else(|| own.join("lib"));
    println!("cargo:rerun-if-changed={}", watched.join(ARCHIVE).display());
}

// The folder, where the archive is in it.
fn with_archive(folder: PathBuf) -> Option<PathBuf> {
    folder.join(ARCHIVE).exists().then_some(folder)
}

// PREFIX/lib, of a crate that is installed as PREFIX/share/cargo/registry/kovshenul-VERSION.
fn lib_of_prefix(own: &Path) -> Option<PathBuf> {
    let registry = own.parent()?;
    let prefix = registry.ancestors().nth(3)?;
    registry.ends_with("share/cargo/registry").then(|| prefix.join("lib"))
}

fn told_by_pkg_config() -> Option<PathBuf> {
    let mut command = Command::new("pkg-config");
    let asked = command.args(["--variable=libdir", "kovshenul"]).output().ok()?;
    let told = String::from_utf8(asked.stdout).ok()?.trim().to_string();
    (asked.status.success() && !told.is_empty()).then(|| PathBuf::from(told))
}
