//! Links the library of dist/, or compiles passkey.c where there is none for the machine.
use std::env::{var, var_os};
use std::path::PathBuf;
use std::process::Command;

fn folder(name: &str) -> PathBuf {
    PathBuf::from(var_os(name).expect("cargo says it"))
}

fn ran(command: &mut Command) {
    assert!(command.status().expect("a C compiler and ar").success(), "{command:?} failed");
}

fn main() {
    let top = folder("CARGO_MANIFEST_DIR").join("..");
    let machine = match (var("CARGO_CFG_TARGET_OS").as_deref(), var("CARGO_CFG_TARGET_ARCH").as_deref()) {
        (Ok("linux"), Ok(machine @ ("x86_64" | "aarch64"))) => Some(machine.to_string()),
        _ => None,
    };
    let library = match machine.filter(|_| var_os("CARGO_FEATURE_PORTABLE").is_none()) {
        Some(machine) => top.join("dist").join(machine),
        None => {
            let (source, out) = (top.join("dist/portable/passkey.c"), folder("OUT_DIR"));
            let (object, archive) = (out.join("passkey.o"), out.join("libpasskey.a"));
            println!("cargo:rerun-if-changed={}", source.display());
            println!("cargo:rerun-if-env-changed=CC");
            let compiler = var_os("CC").unwrap_or_else(|| "cc".into());
            ran(Command::new(compiler).args(["-O2", "-fPIC", "-c", "-I"]).arg(top.join("c")).arg(source).arg("-o").arg(&object));
            let _ = std::fs::remove_file(&archive);
            ran(Command::new(var_os("AR").unwrap_or_else(|| "ar".into())).arg("crs").arg(archive).arg(object));
            println!("cargo:rustc-link-lib=m");
            out
        }
    };
    println!("cargo:rerun-if-changed={}", library.join("libpasskey.a").display());
    println!("cargo:rustc-link-search=native={}", library.display());
    println!("cargo:rustc-link-lib=static=passkey");
}
