//! Says where the static library libvx.a is: in the folder that the variable VX_LIBRARY_DIR names.

use std::env;
use std::path::Path;
use std::process;

fn main() {
    println!("cargo:rerun-if-env-changed=VX_LIBRARY_DIR");
    let folder = match env::var("VX_LIBRARY_DIR") {
        Ok(folder) => folder,
        Err(_) => stop("the variable VX_LIBRARY_DIR isn't set: it names the folder of libvx.a"),
    };
    if !Path::new(&folder).join("libvx.a").exists() {
        stop(&format!("there is no libvx.a in {folder}, which VX_LIBRARY_DIR names"));
    }
    println!("cargo:rustc-link-search=native={folder}");
    println!("cargo:rerun-if-changed={folder}/libvx.a");
    println!("cargo:rustc-link-lib=static=vx");
}

fn stop(message: &str) -> ! {
    eprintln!("error: {message}");
    process::exit(1)
}
