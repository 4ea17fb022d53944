//! Finds the published sources.

use std::path::{Path, PathBuf};
use std::{env, fs};

/// A path from the environment, or one below the project's root.
fn place(variable: &str, default: &str) -> PathBuf {
    println!("cargo:rerun-if-env-changed={variable}");
    let path = env::var_os(variable).map(PathBuf::from);
    let path = path.unwrap_or_else(|| Path::new(&env::var("CARGO_MANIFEST_DIR").unwrap()).join("..").join(default));
    path.canonicalize().unwrap_or_else(|e| panic!("{variable}: {}: {e}", path.display()))
}

/// The module tree, over the files where they lie.
fn tree(source: &Path) -> String {
    let file = |name: &str| source.join(name).display().to_string();
    format!(
        "#[path = {:?}] pub mod card;\n\
         #[path = {:?}] pub mod error;\n\
         pub mod hdu {{\n\
             pub use crate::card::Value;\n\
             #[path = {:?}] pub mod header;\n\
         }}\n\
         #[path = {:?}] mod rice;\n",
        file("card.rs"),
        file("error.rs"),
        file("hdu/header/mod.rs"),
        file("hdu/data/bintable/tile_compressed/rice.rs"),
    )
}

fn main() {
    let source = place("WIDREKAS_FITSRS", "../shared/docs/src").join("src");
    println!("cargo:rerun-if-changed={}", source.display());
    let out = PathBuf::from(env::var_os("OUT_DIR").unwrap());
    fs::write(out.join("tree.rs"), tree(&source)).unwrap();
}
