//! Links the proved library when the environment variable TRIAL_LIB names a folder that has it.

use std::{env, path::Path};

fn main() {
    println!("cargo:rustc-check-cfg=cfg(trial)");
    println!("cargo:rerun-if-changed=build.rs");
    println!("cargo:rerun-if-env-changed=TRIAL_LIB");
    let Ok(folder) = env::var("TRIAL_LIB") else {
        return;
    };
    let library = Path::new(&folder).join("libtrial.a");
    println!("cargo:rerun-if-changed={}", library.display());
    if !library.is_file() {
        println!("cargo:warning=TRIAL_LIB is set, but there is no {}", library.display());
        return;
    }
    println!("cargo:rustc-link-search=native={folder}");
    println!("cargo:rustc-link-lib=static=trial");
    println!("cargo:rustc-cfg=trial");
}
