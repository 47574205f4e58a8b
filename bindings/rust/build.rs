// Links libupon.a from the folder UPON_LIB, or from where pkg-config knows it.
use std::env;
use std::path::PathBuf;
use std::process::Command;

// The folder that has the library, as pkg-config says it.
fn known_folder() -> Option<PathBuf> {
    let ran = Command::new("pkg-config").args(["--variable=libdir", "upon"]).output().ok()?;
    let folder = String::from_utf8(ran.stdout).ok()?;
    ran.status.success().then(|| PathBuf::from(folder.trim()))
}

fn main() {
    println!("cargo:rerun-if-env-changed=UPON_LIB");
    println!("cargo:rerun-if-env-changed=PKG_CONFIG_PATH");
    let folder = env::var_os("UPON_LIB").map(PathBuf::from).or_else(known_folder);
    let folder = folder.expect("set UPON_LIB to the folder of libupon.a, or PKG_CONFIG_PATH to that of upon.pc");
    println!("cargo:rerun-if-changed={}", folder.join("libupon.a").display());
    println!("cargo:rustc-link-search=native={}", folder.display());
    println!("cargo:rustc-link-lib=static=upon");
}
