//! Links the static library. `AMQP_TYPES_LIB` names the folder with `libamqp_types.a`; without it pkg-config says where that is.

use std::process::Command;

/// Returns the folder that pkg-config knows, if it is there and knows one.
fn folder_of_pkg_config() -> Option<String> {
    let ran = Command::new("pkg-config").args(["--variable=libdir", "amqp_types"]).output().ok()?;
    let folder = String::from_utf8(ran.stdout).ok()?.trim().to_string();
    (ran.status.success() && !folder.is_empty()).then_some(folder)
}

fn main() {
    println!("cargo:rerun-if-env-changed=AMQP_TYPES_LIB");
    println!("cargo:rerun-if-env-changed=PKG_CONFIG_PATH");
    match std::env::var("AMQP_TYPES_LIB").ok().or_else(folder_of_pkg_config) {
        Some(folder) => {
            println!("cargo:rustc-link-search=native={folder}");
            println!("cargo:rerun-if-changed={folder}/libamqp_types.a");
        }
        None => println!("cargo:warning=set AMQP_TYPES_LIB to the folder with libamqp_types.a, since pkg-config knows no amqp_types"),
    }
    println!("cargo:rustc-link-lib=static=amqp_types");
}
