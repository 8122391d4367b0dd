//! Says where libopalport stands: in the folder that OPALPORT_LIB names, else where pkg-config finds it. Where neither tells,
//! it warns, so that `cargo check` and `cargo doc` need no library.

use std::env;
use std::path::Path;
use std::process::Command;

/// What pkg-config answers for opalport.pc, where it is there.
fn told(question: &str) -> Option<String> {
    let tool = env::var_os("PKG_CONFIG").unwrap_or_else(|| "pkg-config".into());
    let ran = Command::new(tool).args([question, "opalport"]).output().ok()?;
    ran.status.success().then(|| String::from_utf8_lossy(&ran.stdout).trim().to_owned())
}

fn link(folder: &str, kind: &str) {
    println!("cargo:rustc-link-search=native={folder}");
    println!("cargo:rustc-link-lib={kind}=opalport");
}

fn main() {
    for name in ["OPALPORT_LIB", "PKG_CONFIG", "PKG_CONFIG_PATH", "PKG_CONFIG_LIBDIR", "PKG_CONFIG_SYSROOT_DIR"] {
        println!("cargo:rerun-if-env-changed={name}");
    }
    let is_static = env::var_os("CARGO_FEATURE_STATIC").is_some();
    if let Ok(folder) = env::var("OPALPORT_LIB") {
        let has_archive = Path::new(&folder).join("libopalport.a").is_file();
        link(&folder, if is_static || has_archive { "static" } else { "dylib" });
    } else if let Some(folder) = told("--variable=libdir") {
        link(&folder, if is_static { "static" } else { "dylib" });
    } else {
        println!("cargo:warning=libopalport is not found: OPALPORT_LIB names its folder, or PKG_CONFIG_PATH that of opalport.pc");
    }
}
