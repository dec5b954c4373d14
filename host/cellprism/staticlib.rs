//! Links a library that host/staticlib.sh makes. The build scripts here and in host/product share this file.

use std::env;
use std::path::{Path, PathBuf};
use std::process;

/// Links `lib<name>.a`. Where it is not there, the build stops here and says what to run, and does not
/// go on to an error of the linker.
pub fn link(name: &str) {
    let folder = folder();
    let library = folder.join(format!("lib{name}.a"));
    println!("cargo:rerun-if-env-changed=CELLPRISM_STATICLIB");
    println!("cargo:rerun-if-changed={}", library.display());
    if !library.is_file() {
        eprintln!("{}", not_there(name, &folder));
        process::exit(1);
    }
    println!("cargo:rustc-link-search=native={}", folder.display());
    println!("cargo:rustc-link-lib=static={name}");
}

/// The folder that `CELLPRISM_STATICLIB` names, or else the one that host/staticlib.sh writes to. One that
/// is not absolute counts from the package's own folder.
fn folder() -> PathBuf {
    let package = env::var_os("CARGO_MANIFEST_DIR").expect("cargo names the package's folder");
    let named = env::var_os("CELLPRISM_STATICLIB");
    Path::new(&package).join(named.unwrap_or_else(|| "../../target/staticlib".into()))
}

fn not_there(name: &str, folder: &Path) -> String {
    format!(
        "there is no lib{name}.a in {}\n\
         `bash host/staticlib.sh {name}`, run at the root of Cellprism's repository, makes it in target/staticlib;\n\
         CELLPRISM_STATICLIB=FOLDER names another folder, by its absolute path, that has it",
        folder.display()
    )
}
