//! Where the library is: the folder that the variable UCLBOARD_FOLDER names, else `library` at the top of the repository. A relative name starts
//! at the folder where cargo was started, which the shell tells by PWD.

use std::env::var;
use std::path::Path;

fn main() {
    println!("cargo:rerun-if-env-changed=UCLBOARD_FOLDER");
    let named = var("UCLBOARD_FOLDER").unwrap_or_else(|_| concat!(env!("CARGO_MANIFEST_DIR"), "/../../library").to_owned());
    if Path::new(&named).is_relative() {
        println!("cargo:rerun-if-env-changed=PWD");
    }
    let folder = Path::new(&var("PWD").unwrap_or_default()).join(named);
    let archive = folder.join("libuclboard.a");
    assert!(archive.is_file(), "no {}: `./build library` makes the folder that UCLBOARD_FOLDER names", archive.display());
    println!("cargo:rerun-if-changed={}", archive.display());
    println!("cargo:rustc-link-search=native={}", folder.display());
}
