//! Finds the archive: by the environment variable KIJOLVAR_LIB, or else in this folder, or where abi/build.sh puts it.
use std::path::{Path, PathBuf};
use std::process::ExitCode;

fn main() -> ExitCode {
    println!("cargo:rerun-if-env-changed=KIJOLVAR_LIB");
    let here = PathBuf::from(std::env::var_os("CARGO_MANIFEST_DIR").unwrap_or_default());
    let folders = match std::env::var_os("KIJOLVAR_LIB") {
        Some(folder) => vec![here.join(folder)],
        None => vec![here.clone(), here.join("../../out")],
    };
    match folders.iter().find(|folder| Path::new(folder).join("libkijolvar.a").exists()) {
        Some(folder) => {
            println!("cargo:rerun-if-changed={}", folder.join("libkijolvar.a").display());
            println!("cargo:rustc-link-search=native={}", folder.display());
            println!("cargo:rustc-link-lib=static=kijolvar");
            ExitCode::SUCCESS
        }
        None => {
            println!(
                "cargo:warning=libkijolvar.a is in none of {folders:?}: make it by abi/build.sh, or set KIJOLVAR_LIB"
            );
            ExitCode::FAILURE
        }
    }
}
