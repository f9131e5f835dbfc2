//! Links the library: the static one of the folder that `ICU_LOCALE_LIBRARY_DIR` names, or of where `bindings/build` puts it in
//! the repository; or else the shared one that `pkg-config` knows, as a package of the system installs it.

use std::env;
use std::path::{Path, PathBuf};
use std::process::{self, Command};

fn main() {
    println!("cargo:rerun-if-env-changed=ICU_LOCALE_LIBRARY_DIR");
    println!("cargo:rerun-if-env-changed=PKG_CONFIG_PATH");
    let here = PathBuf::from(env::var_os("CARGO_MANIFEST_DIR").expect("cargo names the folder of the package"));
    let named = env::var_os("ICU_LOCALE_LIBRARY_DIR").filter(|named| !named.is_empty());
    let folder = named.as_ref().map_or_else(|| here.join("../../out/bindings"), PathBuf::from);
    if !link_static(&folder) && (named.is_some() || !link_shared()) {
        eprintln!("icu_locale_c: there is no {}", folder.join("libicu_locale.a").display());
        eprintln!("icu_locale_c: install Debian's libicu-locale-dev, or run bindings/build in the repository, or name the folder by ICU_LOCALE_LIBRARY_DIR");
        process::exit(1);
    }
}

/// Links the static library of this folder. Returns `false` if there is none.
fn link_static(folder: &Path) -> bool {
    let library = folder.join("libicu_locale.a");
    println!("cargo:rerun-if-changed={}", library.display());
    if library.is_file() {
        println!("cargo:rustc-link-search=native={}", folder.display());
        println!("cargo:rustc-link-lib=static=icu_locale");
    }
    library.is_file()
}

/// Links the library that `pkg-config` knows. Returns `false` if it knows none, or if there is no `pkg-config`.
fn link_shared() -> bool {
    let command = env::var_os("PKG_CONFIG").unwrap_or_else(|| "pkg-config".into());
    let said = match Command::new(command).args(["--variable=libdir", "icu_locale"]).output() {
        Ok(said) if said.status.success() => String::from_utf8_lossy(&said.stdout).trim().to_string(),
        _ => return false,
    };
    println!("cargo:rustc-link-search=native={said}");
    println!("cargo:rustc-link-lib=dylib=icu_locale");
    true
}
