//! Tells the benchmark where the library is: TCU_LIB names the folder that holds
//! libtcu.a. Without it the benchmark is built as a stub.

use std::env;
use std::path::Path;

fn main() {
    println!("cargo:rerun-if-env-changed=TCU_LIB");
    println!("cargo:rustc-check-cfg=cfg(tcu_linked)");
    if let Some(folder) = env::var_os("TCU_LIB") {
        let archive = Path::new(&folder).join("libtcu.a");
        println!("cargo:rerun-if-changed={}", archive.display());
        println!("cargo:rustc-link-search=native={}", Path::new(&folder).display());
        println!("cargo:rustc-cfg=tcu_linked");
    }
}
