//! Finds the static library: with the feature `vendored` in this package; else in the folder that IMAGESIZE_LIB_DIR names; else
//! where pkg-config finds `imagesize`; else where `examples/run build` puts it in the repository that this package is in.
//!
//! That library is for Linux on x86-64 with glibc. For any other target, the portable library is compiled, unless IMAGESIZE_LIB_DIR names
//! one. Its source is in the folder `vendor`, or where `bindings/portable/build` puts it. The compiler is the one in CC_TARGET, TARGET_CC or
//! CC, and the archiver the one in AR_TARGET, TARGET_AR or AR, as for the crate `cc`. With IMAGESIZE_PORTABLE=1 every target gets it.

use std::env;
use std::ffi::OsString;
use std::path::{Path, PathBuf};
use std::process::{self, Command};

const HELP: &str = "\
This package links the proved library, libimagesize.a. The package of a release has it, and links it with the feature `vendored`:
    imagesize = { path = \"..\", features = [\"vendored\"] }
In the library's repository, build it and name its folder:
    examples/run build
    export IMAGESIZE_LIB_DIR=$PWD/examples/out
or install it where pkg-config finds it:
    make -C bindings/c install PREFIX=$HOME/.local
    export PKG_CONFIG_PATH=$HOME/.local/lib/pkgconfig";

fn main() {
    for name in [
        "IMAGESIZE_LIB_DIR",
        "IMAGESIZE_PORTABLE",
        "PKG_CONFIG",
        "PKG_CONFIG_PATH",
        "CC",
        "AR",
    ] {
        println!("cargo:rerun-if-env-changed={name}");
    }
    let target = env::var("TARGET").unwrap_or_default();
    for name in ["CC", "AR"] {
        for named in names_for(name, &target) {
            println!("cargo:rerun-if-env-changed={named}");
        }
    }
    let (library, help) = if needs_portable() {
        (portable(), "")
    } else {
        (found(), HELP)
    };
    match library {
        Ok(library) => link(&library),
        Err(reason) => {
            eprintln!("{reason}\n{help}");
            process::exit(1);
        }
    }
}

/// Whether the native library does not run on the target, or the portable one is asked for.
fn needs_portable() -> bool {
    let is = |name: &str, value: &str| env::var(name).is_ok_and(|found| found == value);
    let is_native = is("CARGO_CFG_TARGET_OS", "linux")
        && is("CARGO_CFG_TARGET_ARCH", "x86_64")
        && is("CARGO_CFG_TARGET_ENV", "gnu")
        && is("CARGO_CFG_TARGET_POINTER_WIDTH", "64");
    let is_named = env::var_os("IMAGESIZE_LIB_DIR").is_some()
        && env::var_os("CARGO_FEATURE_VENDORED").is_none();
    is("IMAGESIZE_PORTABLE", "1") || (!is_native && !is_named)
}

/// The portable library, compiled for the target.
fn portable() -> Result<PathBuf, String> {
    let package = PathBuf::from(env::var_os("CARGO_MANIFEST_DIR").unwrap_or_default());
    let out = PathBuf::from(env::var_os("OUT_DIR").unwrap_or_default());
    let folders =
        ["vendor", "../portable/out/imagesize-portable"].map(|folder| package.join(folder));
    let source = folders
        .iter()
        .map(|folder| folder.join("imagesize_portable.c"))
        .find(|source| source.exists())
        .ok_or("this target needs the source of the portable library, imagesize_portable.c, which the package of a release has")?;
    println!("cargo:rerun-if-changed={}", source.display());
    let (object, library) = (out.join("imagesize_portable.o"), out.join("libimagesize.a"));
    let mut compiler = tool("CC", &["cc", "gcc", "clang"])?;
    compiler
        .args(["-O2", "-fPIC", "-c", "-o"])
        .arg(&object)
        .arg(&source);
    ran(compiler)?;
    let _ = std::fs::remove_file(&library);
    let mut archiver = tool("AR", &["ar", "llvm-ar"])?;
    archiver.arg("crs").arg(&library).arg(&object);
    ran(archiver)?;
    Ok(library)
}

/// The command of a tool for the target: the one that the environment names, or one of these. For another machine than this one, these
/// have its name before theirs, as in aarch64-linux-gnu-gcc.
fn tool(name: &str, usual: &[&str]) -> Result<Command, String> {
    let [target, host] = ["TARGET", "HOST"].map(|name| env::var(name).unwrap_or_default());
    if let Some(words) = names_for(name, &target).iter().find_map(env::var_os) {
        let words = words.into_string().unwrap_or_default();
        let mut words = words.split_whitespace();
        let mut command = Command::new(words.next().unwrap_or_default());
        command.args(words);
        return Ok(command);
    }
    let prefix = match target
        .replace("-unknown-", "-")
        .replace("-pc-windows-gnu", "-w64-mingw32")
        .replace("riscv64gc-", "riscv64-")
        .replace("armv7-", "arm-")
    {
        target if env::var("TARGET") == env::var("HOST") || target.is_empty() => String::new(),
        target if target.ends_with("-apple-darwin") && host.ends_with("-apple-darwin") => {
            String::new()
        }
        target => format!("{target}-"),
    };
    // An archiver writes the objects of any machine in the same way.
    let plain = if name == "AR" { usual } else { &[] };
    usual
        .iter()
        .map(|tool| OsString::from(format!("{prefix}{tool}")))
        .chain(plain.iter().map(OsString::from))
        .find(|tool| Command::new(tool).arg("--version").output().is_ok())
        .map(Command::new)
        .ok_or(format!(
            "no {prefix}{} was found to build the library for {target}: name one in {name}_{}",
            usual[0],
            target.replace('-', "_")
        ))
}

/// The variables that may name a tool for a target, as the crate `cc` has them.
fn names_for(name: &str, target: &str) -> [String; 4] {
    [
        format!("{name}_{target}"),
        format!("{name}_{}", target.replace('-', "_")),
        format!("TARGET_{name}"),
        name.to_string(),
    ]
}

/// Runs a command, and says what it printed if it fails.
fn ran(mut command: Command) -> Result<(), String> {
    let ended = command
        .output()
        .map_err(|error| format!("{command:?} did not start ({error}): name a C compiler in CC"))?;
    if !ended.status.success() {
        return Err(format!(
            "{command:?} failed:\n{}",
            String::from_utf8_lossy(&ended.stderr)
        ));
    }
    Ok(())
}

/// The library, or why there is none.
fn found() -> Result<PathBuf, String> {
    let package = PathBuf::from(env::var_os("CARGO_MANIFEST_DIR").unwrap_or_default());
    if env::var_os("CARGO_FEATURE_VENDORED").is_some() {
        return library_in(&package.join("vendor"));
    }
    if let Some(folder) = env::var_os("IMAGESIZE_LIB_DIR") {
        return library_in(Path::new(&folder));
    }
    installed()
        .and_then(|folder| library_in(&folder))
        .or_else(|reason| library_in(&package.join("../../examples/out")).map_err(|_| reason))
}

/// The library's folder, as pkg-config tells it.
fn installed() -> Result<PathBuf, String> {
    let tool = env::var_os("PKG_CONFIG").unwrap_or_else(|| "pkg-config".into());
    let told = Command::new(&tool)
        .args(["--variable=libdir", "imagesize"])
        .output()
        .map_err(|error| format!("{} did not start ({error})", Path::new(&tool).display()))?;
    let folder = String::from_utf8_lossy(&told.stdout);
    match folder.trim() {
        "" => Err("IMAGESIZE_LIB_DIR is not set, and pkg-config knows no imagesize".into()),
        folder => Ok(folder.into()),
    }
}

/// The library in a folder.
fn library_in(folder: &Path) -> Result<PathBuf, String> {
    let library = folder.join("libimagesize.a");
    println!("cargo:rerun-if-changed={}", library.display());
    library
        .canonicalize()
        .map_err(|error| format!("{}: {error}", library.display()))
}

fn link(library: &Path) {
    let folder = library.parent().unwrap_or(Path::new("/"));
    println!("cargo:rustc-link-search=native={}", folder.display());
    println!("cargo:rustc-link-lib=static=imagesize");
}
