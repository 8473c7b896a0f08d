//! Links libdarbexum: from the folder DARBEXUM_LIB_DIR, or as pkg-config says. DARBEXUM_STATIC=1 links the archive.
use std::env;
use std::process::Command;

fn main() {
    println!("cargo:rerun-if-env-changed=DARBEXUM_LIB_DIR");
    println!("cargo:rerun-if-env-changed=DARBEXUM_STATIC");
    if let Some(folder) = env::var("DARBEXUM_LIB_DIR").ok().or_else(folder_of_pkg_config) {
        println!("cargo:rustc-link-search=native={folder}");
    }
    let kind = if env::var("DARBEXUM_STATIC").as_deref() == Ok("1") { "static" } else { "dylib" };
    println!("cargo:rustc-link-lib={kind}=darbexum");
}

fn folder_of_pkg_config() -> Option<String> {
    let done = Command::new("pkg-config").args(["--variable=libdir", "darbexum"]).output().ok()?;
    let folder = String::from_utf8(done.stdout).ok()?.trim().to_string();
    (done.status.success() && !folder.is_empty()).then_some(folder)
}
