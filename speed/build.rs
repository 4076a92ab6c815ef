//! Links the proved desk, libreplay.a, which `./bench` makes for this machine.

use std::env;

fn main() {
    println!("cargo:rerun-if-env-changed=REPLAY");
    let Ok(folder) = env::var("REPLAY") else {
        panic!("REPLAY names no folder with libreplay.a: run ./bench at the top of the repository");
    };
    println!("cargo:rerun-if-changed={folder}/libreplay.a");
    println!("cargo:rustc-link-search=native={folder}");
    println!("cargo:rustc-link-lib=static=replay");
}
