//! Links libdrintelbok.a: from the folder that the variable DRINTELBOK_LIB_DIR names, or from where `bindings/archive` puts it in
//! this repository. A relative folder starts where cargo is run. What is missing is said before the linker is asked.
use std::path::{Path, PathBuf};
use std::{env, fs, process};

const VARIABLE: &str = "DRINTELBOK_LIB_DIR";

fn main() {
    println!("cargo:rerun-if-env-changed={VARIABLE}");
    if let Err(missing) = target().and_then(|()| link()) {
        eprintln!("error: pipnn-gateway: {missing}");
        process::exit(1);
    }
}

/// The archive is for one processor and one system.
fn target() -> Result<(), String> {
    let of = |name: &str| env::var(format!("CARGO_CFG_TARGET_{name}")).unwrap_or_default();
    let (arch, os, width) = (of("ARCH"), of("OS"), of("POINTER_WIDTH"));
    if (arch.as_str(), os.as_str(), width.as_str()) == ("x86_64", "linux", "64") {
        return Ok(());
    }
    Err(format!(
        "the library is for x86-64 Linux only, and the target of this build is {} ({arch}, {os}, {width} bits)",
        env::var("TARGET").unwrap_or_default()
    ))
}

fn link() -> Result<(), String> {
    let folder = folder()?;
    let archive = folder.join("libdrintelbok.a");
    println!("cargo:rerun-if-changed={}", archive.display());
    let bytes = fs::read(&archive).map_err(|why| {
        format!(
            "cannot read {} ({why}): run 'bindings/archive' in the repository, or set {VARIABLE} to the folder that has it",
            archive.display()
        )
    })?;
    if !is_for_x86_64(&bytes) {
        return Err(format!("{} is not an archive of x86-64 object files", archive.display()));
    }
    println!("cargo:rustc-link-search=native={}", folder.display());
    println!("cargo:rustc-link-lib=static=drintelbok");
    Ok(())
}

/// The archive's folder, as an absolute path. Cargo runs this program in the crate's folder, so where cargo itself is run is known from
/// the variable PWD alone, which a shell sets.
fn folder() -> Result<PathBuf, String> {
    let named = match env::var_os(VARIABLE) {
        Some(named) if !named.is_empty() => PathBuf::from(named),
        _ => {
            let home = env::var_os("CARGO_MANIFEST_DIR").expect("cargo sets it");
            return Ok(Path::new(&home).join("../../target/staticlib"));
        }
    };
    if named.is_absolute() {
        return Ok(named);
    }
    println!("cargo:rerun-if-env-changed=PWD");
    match env::var_os("PWD").map(PathBuf::from) {
        Some(start) if start.is_absolute() => Ok(start.join(named)),
        _ => Err(format!(
            "{VARIABLE} is the relative folder {}, and PWD does not say where cargo is run: set an absolute one",
            named.display()
        )),
    }
}

/// Whether the first object of an archive is ELF of 64 bits for x86-64. A member is 60 bytes, its size in decimal among them, and then
/// its content, padded to an even length.
fn is_for_x86_64(archive: &[u8]) -> bool {
    const X86_64: [u8; 2] = [62, 0];
    let mut rest = match archive.strip_prefix(b"!<arch>\n") {
        Some(rest) => rest,
        None => return false,
    };
    while let (Some(size), Some(content)) = (rest.get(48..58), rest.get(60..)) {
        if content.starts_with(b"\x7fELF") {
            return content.get(4) == Some(&2) && content.get(18..20) == Some(&X86_64);
        }
        let size: usize = match std::str::from_utf8(size).map(|digits| digits.trim().parse()) {
            Ok(Ok(size)) => size,
            _ => return false,
        };
        rest = content.get(size + size % 2..).unwrap_or_default();
    }
    false
}
