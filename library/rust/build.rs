//! Links libtimestore.a: of the folder in TIMESTORE_LIB_DIR, of where it was built beside this crate or installed
//! with it, or of where pkg-config says that it is.
use std::path::{Path, PathBuf};
use std::process::Command;

const NAME: &str = "libtimestore.a";

// The folder that pkg-config tells.
fn told() -> Option<PathBuf> {
    let answer = Command::new("pkg-config")
        .args(["--variable=libdir", "timestore"])
        .output()
        .ok()?;
    let folder = String::from_utf8(answer.stdout).ok()?;
    Some(PathBuf::from(folder.trim()))
}

fn found(crate_folder: &Path) -> Option<PathBuf> {
    let places = [
        crate_folder.join("../out"),
        crate_folder.join("../../../lib"),
    ];
    places
        .into_iter()
        .chain(told())
        .find(|folder| folder.join(NAME).is_file())
}

fn main() {
    println!("cargo:rerun-if-env-changed=TIMESTORE_LIB_DIR");
    println!("cargo:rerun-if-env-changed=PKG_CONFIG_PATH");
    let here = std::env::var_os("CARGO_MANIFEST_DIR").expect("cargo names the crate's folder");
    let folder = match std::env::var_os("TIMESTORE_LIB_DIR") {
        Some(named) => Some(PathBuf::from(named)),
        None => found(Path::new(&here)),
    };
    match folder {
        Some(folder) => {
            println!("cargo:rustc-link-search=native={}", folder.display());
            println!("cargo:rerun-if-changed={}", folder.join(NAME).display());
        }
        None => println!(
            "cargo:warning={NAME} was not found: build or install it, or name its folder in TIMESTORE_LIB_DIR"
        ),
    }
    println!("cargo:rustc-link-lib=static=timestore");
}
