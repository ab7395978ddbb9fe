//! Links the static library. It is the first of these that is there: the archive that `LOVENDAK_LIB` names, whatever the file is called;
//! the one that `bindings/pack` puts into the crate, `native/liblovendak.a`; the one that `bindings/run` builds; an installed one of the
//! crate's version, as pkg-config finds it.

use std::path::{Path, PathBuf};
use std::process::{self, Command};
use std::{env, fs, io};

const VERSION: &str = env!("CARGO_PKG_VERSION");

fn main() {
    for name in ["LOVENDAK_LIB", "PKG_CONFIG_PATH", "PKG_CONFIG_LIBDIR"] {
        println!("cargo:rerun-if-env-changed={}", name);
    }
    if let Err(wanted) = found().and_then(|library| linked(&library)) {
        eprintln!("lovendak: {}", wanted);
        process::exit(1);
    }
}

/// The archive to link, or what is wanted.
fn found() -> Result<PathBuf, String> {
    if let Some(named) = env::var_os("LOVENDAK_LIB") {
        return Ok(PathBuf::from(named));
    }
    let beside = ["native/liblovendak.a", "../build/liblovendak.a"].map(|it| of_cargo("CARGO_MANIFEST_DIR").join(it));
    beside.iter().for_each(|archive| println!("cargo:rerun-if-changed={}", archive.display()));
    beside.into_iter().find(|archive| archive.exists()).or_else(installed).ok_or_else(|| {
        format!(
            "this crate wants the library's archive, which LOVENDAK_LIB names, bindings/run builds, or the package lovendak-dev \
             {} installs",
            VERSION
        )
    })
}

fn installed() -> Option<PathBuf> {
    let asked =
        Command::new("pkg-config").args(["--variable=libdir", &format!("lovendak = {}", VERSION)]).output().ok()?;
    let folder = String::from_utf8(asked.stdout).ok()?;
    Some(Path::new(folder.trim()).join("liblovendak.a")).filter(|archive| asked.status.success() && archive.exists())
}

/// Links an archive under a name of this crate's own, since cargo looks for a library by its name.
fn linked(archive: &Path) -> Result<(), String> {
    println!("cargo:rerun-if-changed={}", archive.display());
    link("lovendak", archive)?;
    let bytes = fs::read(archive).map_err(|error| unreadable(archive, error))?;
    if has_heap(&bytes) {
        return Ok(());
    }
    let kit = heap_of_kit()
        .ok_or_else(|| format!("{} wants the Rattle kit's rt in PATH, whose heap it needs", archive.display()))?;
    link("lovendak_heap", &kit)
}

fn link(name: &str, archive: &Path) -> Result<(), String> {
    let folder = of_cargo("OUT_DIR");
    fs::copy(archive, folder.join(format!("lib{}.a", name))).map_err(|error| unreadable(archive, error))?;
    println!("cargo:rustc-link-search=native={}", folder.display());
    println!("cargo:rustc-link-lib=static={}", name);
    Ok(())
}

fn unreadable(archive: &Path, error: io::Error) -> String {
    format!("this crate can't read the library's archive {}: {}", archive.display(), error)
}

/// Whether an archive has the functions of Rattle's heap, as the index of names in its first member says. What `rt lib` makes lacks
/// them.
fn has_heap(archive: &[u8]) -> bool {
    let size = archive.get(56..66).and_then(|digits| std::str::from_utf8(digits).ok()?.trim().parse::<usize>().ok());
    let index = size.and_then(|size| archive.get(68..68 + size)).unwrap_or_default();
    index.split(|byte| *byte == 0).any(|name| name.ends_with(b"rattle_alloc"))
}

/// The archive of the heap, in the kit whose `rt` is in PATH.
fn heap_of_kit() -> Option<PathBuf> {
    let rt = env::split_paths(&env::var_os("PATH")?).map(|folder| folder.join("rt")).find(|rt| rt.is_file())?;
    let heap = rt.canonicalize().ok()?.parent()?.parent()?.join("c/liblibc_c.a");
    Some(heap).filter(|heap| heap.exists())
}

fn of_cargo(name: &str) -> PathBuf {
    env::var_os(name).map(PathBuf::from).expect("cargo says it")
}
