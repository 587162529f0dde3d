//! Finds the library: in HILLDALE_LIB_DIR, else where pkg-config says.
use std::env;
use std::process::Command;

fn main() {
    println!("cargo:rerun-if-env-changed=HILLDALE_LIB_DIR");
    let folder = env::var("HILLDALE_LIB_DIR").unwrap_or_else(|_| {
        let asked = ["--variable=libdir", "hilldale"];
        let told = Command::new("pkg-config").args(asked).output();
        let told = told.expect("give the folder of libhilldale.a by HILLDALE_LIB_DIR");
        String::from_utf8(told.stdout).expect("the name of a folder").trim().to_owned()
    });
    println!("cargo:rerun-if-changed={folder}/libhilldale.a");
    println!("cargo:rustc-link-search=native={folder}");
    println!("cargo:rustc-link-lib=static=hilldale");
}
