//! Links the static libraries `libnfs3.a` and `libmount3.a` into the two
//! binaries that compare the peer with them. Without the first they are built
//! as stubs that say so, without the second only what is about MOUNT is.
//!
//! The folder is taken from the environment variable `NFS3_LIBRARY`; the
//! default is `../target/staticlib`. Further link arguments, separated by
//! blanks, may stand in `NFS3_LINK_ARGUMENTS`.

use std::env;
use std::path::PathBuf;

const NEED_LIBRARY: [&str; 2] = ["compare", "bench"];

fn main() {
    println!("cargo:rerun-if-changed=build.rs");
    println!("cargo:rerun-if-env-changed=NFS3_LIBRARY");
    println!("cargo:rerun-if-env-changed=NFS3_LINK_ARGUMENTS");
    println!("cargo:rustc-check-cfg=cfg(nfs3_library)");
    println!("cargo:rustc-check-cfg=cfg(mount3_library)");
    let package = PathBuf::from(env::var_os("CARGO_MANIFEST_DIR").unwrap_or_default());
    let folder = match env::var_os("NFS3_LIBRARY") {
        Some(folder) => package.join(folder),
        None => package.join("../target/staticlib"),
    };
    let library = folder.join("libnfs3.a");
    println!("cargo:rerun-if-changed={}", library.display());
    println!("cargo:rustc-env=NFS3_LIBRARY_FILE={}", library.display());
    let mount = folder.join("libmount3.a");
    println!("cargo:rerun-if-changed={}", mount.display());
    println!("cargo:rustc-env=MOUNT3_LIBRARY_FILE={}", mount.display());
    if !library.is_file() {
        return;
    }
    println!("cargo:rustc-cfg=nfs3_library");
    let mut libraries = vec![library];
    if mount.is_file() {
        println!("cargo:rustc-cfg=mount3_library");
        libraries.push(mount);
    }
    let more = env::var("NFS3_LINK_ARGUMENTS").unwrap_or_default();
    for binary in NEED_LIBRARY {
        for library in &libraries {
            println!("cargo:rustc-link-arg-bin={binary}={}", library.display());
        }
        for argument in more.split_whitespace() {
            println!("cargo:rustc-link-arg-bin={binary}={argument}");
        }
    }
}
