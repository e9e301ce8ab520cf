//! Links libgrove.a, from the folder that GROVE_LIBRARY names, or else from where a package has it, or tools/library
//! puts it. A folder that isn't named from the root is one as seen from the crate.

use std::env;
use std::path::{Path, PathBuf};

const LIBRARY: &str = "libgrove.a";
/// Where the library may be, as seen from the crate: in the crate's own archive, in a checkout, below a prefix that it
/// is installed at.
const USUAL: [&str; 3] = ["lib", "../../out/library", "../../../lib"];

fn main() {
    println!("cargo::rerun-if-env-changed=GROVE_LIBRARY");
    let here = env::var("CARGO_MANIFEST_DIR").unwrap_or_default();
    let folders: Vec<PathBuf> = match env::var("GROVE_LIBRARY") {
        Ok(named) if !named.is_empty() => vec![Path::new(&here).join(named)],
        _ => USUAL.map(|folder| Path::new(&here).join(folder)).into(),
    };
    match folders.iter().find(|folder| folder.join(LIBRARY).is_file()) {
        Some(folder) => {
            println!("cargo::rerun-if-changed={}", folder.join(LIBRARY).display());
            println!("cargo::rustc-link-search=native={}", folder.display());
            println!("cargo::rustc-link-lib=static=grove");
        }
        None => {
            let looked: Vec<String> = folders.iter().map(|it| it.display().to_string()).collect();
            println!(
                "cargo::error={LIBRARY} is not in {}",
                looked.join(", nor in ")
            );
            println!("cargo::error=tools/library makes it, and GROVE_LIBRARY names its folder");
        }
    }
}
