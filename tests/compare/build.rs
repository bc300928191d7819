//! Links the library for C, if `VIPR_C_FOLDER` names the folder where `libvipr_c.a` is. Without it the program compares the
//! plain implementation with itself.

fn main() {
    println!("cargo:rerun-if-env-changed=VIPR_C_FOLDER");
    println!("cargo:rustc-check-cfg=cfg(vipr_c)");
    if let Ok(folder) = std::env::var("VIPR_C_FOLDER") {
        println!("cargo:rerun-if-changed={folder}/libvipr_c.a");
        println!("cargo:rustc-link-search=native={folder}");
        println!("cargo:rustc-cfg=vipr_c");
    }
}
