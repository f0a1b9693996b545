//! Links the archive of the library, and that of the kit with its `rattle_alloc`.

use std::env;
use std::path::Path;

/// The archives in the order of linking, and the variables that name their folders.
const ARCHIVES: [(&str, &str); 2] = [("SULLEQTI_LIB", "csl_c"), ("SULLEQTI_KIT_C", "libc_c")];

fn main() {
    println!("cargo:rerun-if-changed=build.rs");
    for (variable, name) in ARCHIVES {
        println!("cargo:rerun-if-env-changed={variable}");
        let folder = env::var(variable).unwrap_or_default();
        let archive = Path::new(&folder).join(format!("lib{name}.a"));
        if archive.is_file() {
            println!("cargo:rerun-if-changed={}", archive.display());
            println!("cargo:rustc-link-search=native={folder}");
            println!("cargo:rustc-link-lib=static={name}");
        } else {
            // What only reads the crate, as `cargo doc`, does without.
            println!("cargo:warning={variable} has to name the folder of lib{name}.a to link");
        }
    }
}
