//! Links the three archives that docs/use/embedding.md names. CONWAY_ARCHIVES has the folders in
//! which they are, separated as those of PATH are.
use std::env;

fn main() {
    println!("cargo:rerun-if-env-changed=CONWAY_ARCHIVES");
    let folders = env::var_os("CONWAY_ARCHIVES")
        .expect("CONWAY_ARCHIVES has the folders of libconway_c.a, liblibc_c.a and libos_c.a");
    for folder in env::split_paths(&folders) {
        println!("cargo:rustc-link-search=native={}", folder.display());
    }
    for archive in ["conway_c", "libc_c", "os_c"] {
        println!("cargo:rustc-link-lib=static={archive}");
    }
}
