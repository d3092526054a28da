//! Compiles the C baselines of `c` with gcc, and links an older proved library where one is given.

use std::env;
use std::path::{Path, PathBuf};
use std::process::Command;

/// The C files, with what each needs beyond the flags of all.
const SOURCES: [(&str, &[&str]); 2] = [("sse2", &[]), ("avx2", &["-mavx2"])];

/// For every C file.
const FLAGS: [&str; 6] = ["-std=c11", "-O3", "-Wall", "-Wextra", "-Werror", "-fPIC"];

/// Names an older `libpetsivola.a` that takes part in the races. A relative path starts at this package.
const OLD_VARIABLE: &str = "PETSIVOLA_OLD_LIB";

/// Its functions that are called; each gets `old_` before its name.
const OLD_CALLS: [&str; 3] = ["petsivola_check", "petsivola_expand", "petsivola_decode"];

fn main() {
    println!("cargo::rerun-if-changed=build.rs");
    println!("cargo::rerun-if-changed=c");
    println!("cargo::rerun-if-env-changed={OLD_VARIABLE}");
    println!("cargo::rustc-check-cfg=cfg(old_library)");
    let out = PathBuf::from(env::var_os("OUT_DIR").expect("cargo names the output directory"));
    println!("cargo::rustc-link-search=native={}", out.display());
    compile(&out);
    let archive = env::var_os(OLD_VARIABLE).unwrap_or_default();
    if !archive.is_empty() {
        rename(Path::new(&archive), &out);
    }
}

/// The C files, into an archive.
fn compile(out: &Path) {
    let mut archive = Command::new("ar");
    archive.arg("crs").arg(out.join("libhand.a"));
    for (name, flags) in SOURCES {
        let object = out.join(name).with_extension("o");
        let mut compiler = Command::new("gcc");
        compiler.args(FLAGS).args(flags).arg("-c");
        compiler.arg(Path::new("c").join(name).with_extension("c"));
        run(compiler.arg("-o").arg(&object));
        archive.arg(object);
    }
    run(&mut archive);
    println!("cargo::rustc-link-lib=static=hand");
}

/// The older library under other names. What is not called is hidden: both libraries define it.
fn rename(archive: &Path, out: &Path) {
    println!("cargo::rerun-if-changed={}", archive.display());
    let mut objcopy = Command::new("objcopy");
    for name in OLD_CALLS {
        objcopy.arg(format!("--redefine-sym={name}=old_{name}"));
        objcopy.arg(format!("--keep-global-symbol=old_{name}"));
    }
    run(objcopy.arg(archive).arg(out.join("libold_petsivola.a")));
    println!("cargo::rustc-link-lib=static=old_petsivola");
    println!("cargo::rustc-cfg=old_library");
}

/// Runs a command; the build fails where it does.
fn run(command: &mut Command) {
    match command.status() {
        Ok(status) if status.success() => (),
        Ok(status) => println!("cargo::error={command:?}: {status}"),
        Err(error) => println!("cargo::error={command:?}: {error}"),
    }
}
