//! Links the library `libinstants`: the static one in the folder that INSTANTS_LIB_DIR names, else the one that this repository
//! built, else that which pkg-config finds.

use std::env;
use std::path::{Path, PathBuf};
use std::process::{Command, ExitCode};

/// Where the repository builds the library, from this crate's folder.
const BUILT: &str = "../../../crates/instants_c/out";
const RELEASES: [&str; 2] = ["instants >= 0.1.0", "instants < 0.2.0"];

fn main() -> ExitCode {
    for name in ["INSTANTS_LIB_DIR", "PKG_CONFIG", "PKG_CONFIG_PATH", "PKG_CONFIG_LIBDIR"] {
        println!("cargo:rerun-if-env-changed={name}");
    }
    match folder() {
        Some(folder) => {
            link_static(&folder);
            ExitCode::SUCCESS
        }
        None => link_as_pkg_config_says(),
    }
}

/// The folder of the static library.
fn folder() -> Option<PathBuf> {
    if let Some(named) = env::var_os("INSTANTS_LIB_DIR") {
        return Some(PathBuf::from(named));
    }
    let built = PathBuf::from(env::var_os("CARGO_MANIFEST_DIR")?).join(BUILT);
    built.join("libinstants.a").exists().then_some(built)
}

fn link_static(folder: &Path) {
    println!("cargo:rerun-if-changed={}", folder.join("libinstants.a").display());
    println!("cargo:rustc-link-search=native={}", folder.display());
    println!("cargo:rustc-link-lib=static=instants");
}

fn link_as_pkg_config_says() -> ExitCode {
    let command = env::var_os("PKG_CONFIG").unwrap_or_else(|| "pkg-config".into());
    let said = match Command::new(&command)
        .args(["--libs", "--print-errors"])
        .args(RELEASES)
        .output()
    {
        Ok(ended) if ended.status.success() => ended.stdout,
        Ok(ended) => return no_library(&String::from_utf8_lossy(&ended.stderr)),
        Err(fault) => return no_library(&format!("{}: {fault}", command.to_string_lossy())),
    };
    for word in String::from_utf8_lossy(&said).split_whitespace() {
        if let Some(folder) = word.strip_prefix("-L") {
            println!("cargo:rustc-link-search=native={folder}");
        } else if let Some(name) = word.strip_prefix("-l") {
            println!("cargo:rustc-link-lib={name}");
        }
    }
    ExitCode::SUCCESS
}

fn no_library(why: &str) -> ExitCode {
    eprintln!("there is no library libinstants: {}", why.trim());
    eprintln!("install Debian's package libinstants-dev, or name the folder of libinstants.a in INSTANTS_LIB_DIR");
    ExitCode::FAILURE
}
