//! Links libllbm.a, or else libllbm-unproved.a, from the folder LLBM_LIB, or else from `out` of the repository or from `lib` of the installation
//! around this crate. Where none is there, the crate has no `Machine`.

use std::env;
use std::path::PathBuf;

const AROUND: [&str; 2] = ["../../out", "../../.."];
const NAMES: [&str; 2] = ["llbm", "llbm-unproved"];

fn main() {
    let here = PathBuf::from(env::var("CARGO_MANIFEST_DIR").unwrap());
    let folders = env::var("LLBM_LIB").map_or_else(|_| AROUND.map(|folder| here.join(folder)).to_vec(), |folder| vec![folder.into()]);
    println!("cargo:rustc-check-cfg=cfg(llbm_library)");
    println!("cargo:rerun-if-env-changed=LLBM_LIB");
    let places = folders.iter().flat_map(|folder| NAMES.map(|name| (folder, name, folder.join(format!("lib{name}.a")))));
    let places: Vec<(&PathBuf, &str, PathBuf)> = places.collect();
    for (_, _, place) in &places {
        println!("cargo:rerun-if-changed={}", place.display());
    }
    if let Some((folder, name, _)) = places.iter().find(|(_, _, place)| place.is_file()) {
        println!("cargo:rustc-link-search=native={}", folder.display());
        println!("cargo:rustc-link-lib=static={name}");
        println!("cargo:rustc-cfg=llbm_library");
    }
}
