//! Links libiommufd.a from the folder that IOMMUFD_LIB names, or from this repository's build for the same architecture.
use std::{env, path::PathBuf};

fn own_build() -> PathBuf {
    let (package, arch) = (env::var("CARGO_MANIFEST_DIR").unwrap(), env::var("CARGO_CFG_TARGET_ARCH").unwrap());
    PathBuf::from(package).join("../../target/archives").join(arch)
}

fn main() {
    let folder = env::var_os("IOMMUFD_LIB").map_or_else(own_build, PathBuf::from);
    let archive = folder.join("libiommufd.a");
    if !archive.exists() {
        println!("cargo:warning={} is not there: build it with archives/build.sh, or let IOMMUFD_LIB name its folder", archive.display());
    }
    println!("cargo:rustc-link-search=native={}", folder.display());
    println!("cargo:rustc-link-lib=static=iommufd");
    println!("cargo:rerun-if-env-changed=IOMMUFD_LIB");
    println!("cargo:rerun-if-changed={}", archive.display());
}
