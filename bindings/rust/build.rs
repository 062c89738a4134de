//! Links the archive: the one that BELFRYCHEST_ARCHIVE names, or the one that was installed with
//! this crate, or the one that `bin/build archive` writes in this repository. An archive
//! that can't be linked is told here, before the linker complains of it in its own words.

use std::env;
use std::fs;
use std::io::ErrorKind;
use std::path::{Path, PathBuf};
use std::process::exit;
use std::str::from_utf8;

/// The file that declares the archive's functions.
const DECLARATIONS: &str = include_str!("src/raw.rs");

/// An archive begins with this; then come its members, each a header and its bytes.
const MAGIC: &[u8] = b"!<arch>\n";
const HEADER_BYTES: usize = 60;
/// The header's name of the member that is the index of all functions, and of the one that holds
/// long names.
const INDEX: &[u8] = b"/               ";
const LONG_NAMES: &[u8] = b"//              ";

/// The number of x86-64 in the header of an object, and those of others that people have.
const X86_64: u16 = 62;
const OTHERS: [(u16, &str); 4] = [(3, "x86"), (40, "Arm"), (183, "aarch64"), (243, "RISC-V")];

type Member<'a> = (&'a [u8], &'a [u8]);

fn main() {
    println!("cargo:rerun-if-env-changed=BELFRYCHEST_ARCHIVE");
    let named = env::var_os("BELFRYCHEST_ARCHIVE").filter(|path| !path.is_empty());
    let archive = named.map_or_else(built_here, PathBuf::from);
    println!("cargo:rerun-if-changed={}", archive.display());
    if let Err(fault) = judge_target().and_then(|()| link(&archive)) {
        eprintln!("belfrychest: {fault}");
        exit(1);
    }
}

/// Returns where the archive is: beside this crate's folder where both are installed, or else where
/// the repository builds it.
fn built_here() -> PathBuf {
    let above = PathBuf::from(from_cargo("CARGO_MANIFEST_DIR")).join("../..");
    let installed = above.join("libbelfrychest.a");
    if installed.is_file() {
        return installed;
    }
    above.join("target/staticlib/libbelfrychest.a")
}

fn from_cargo(variable: &str) -> String {
    env::var(variable).unwrap_or_else(|_| panic!("cargo sets {variable}"))
}

/// Refuses a target that the archive isn't made for.
fn judge_target() -> Result<(), String> {
    let [processor, system] = ["CARGO_CFG_TARGET_ARCH", "CARGO_CFG_TARGET_OS"].map(from_cargo);
    if (processor.as_str(), system.as_str()) == ("x86_64", "linux") {
        return Ok(());
    }
    Err(format!(
        "the archive is for x86-64 Linux, and this build is for {processor} {system}; \
        `--target x86_64-unknown-linux-gnu` builds for x86-64 Linux"
    ))
}

/// Has a copy of the archive linked, under the name that the linker looks for.
fn link(archive: &Path) -> Result<(), String> {
    let shown = archive.display();
    let bytes = fs::read(archive).map_err(|error| match error.kind() {
        ErrorKind::NotFound => format!(
            "there is no archive at {shown}; `bin/build archive` makes it in the \
            repository, dist/ has it in lib/, and BELFRYCHEST_ARCHIVE names one that lies elsewhere"
        ),
        _ => format!("the archive {shown} can't be read: {error}"),
    })?;
    judge(&bytes).map_err(|fault| format!("{shown} {fault}"))?;
    let folder = from_cargo("OUT_DIR");
    fs::write(Path::new(&folder).join("libbelfrychest.a"), bytes)
        .map_err(|error| format!("the archive can't be copied to {folder}: {error}"))?;
    println!("cargo:rustc-link-search=native={folder}");
    println!("cargo:rustc-link-lib=static=belfrychest");
    Ok(())
}

/// Refuses bytes that are no archive of Belfrychest for x86-64.
fn judge(archive: &[u8]) -> Result<(), String> {
    let members = members(archive).ok_or("is no archive, or it is cut off")?;
    let mut objects = members.iter().filter(|(name, _)| ![INDEX, LONG_NAMES].contains(name));
    objects.try_for_each(|(_, object)| judge_object(object))?;
    let index = members.iter().find(|(name, _)| *name == INDEX);
    let found = index.map_or(Vec::new(), |(_, index)| indexed(index));
    judge_functions(&found)
}

/// Returns each member's name and bytes, or none where the bytes aren't an archive.
fn members(archive: &[u8]) -> Option<Vec<Member<'_>>> {
    let mut members = Vec::new();
    let mut rest = archive.strip_prefix(MAGIC)?;
    while !rest.is_empty() {
        let header = rest.get(..HEADER_BYTES)?;
        let size: usize = from_utf8(&header[48..58]).ok()?.trim_end().parse().ok()?;
        let end = HEADER_BYTES + size;
        members.push((&header[..16], rest.get(HEADER_BYTES..end)?));
        // A member of odd size is filled up with a byte.
        rest = rest.get(end + size % 2..).unwrap_or(&[]);
    }
    Some(members)
}

/// Refuses an object for another processor, by the header that an object for Linux has.
fn judge_object(object: &[u8]) -> Result<(), String> {
    let number = match object.get(..20) {
        Some([0x7f, b'E', b'L', b'F', .., low, high]) => u16::from_le_bytes([*low, *high]),
        _ => return Err("holds something that is no object for Linux".to_string()),
    };
    if number == X86_64 {
        return Ok(());
    }
    let known = OTHERS.iter().find(|other| other.0 == number).map(|other| other.1.to_string());
    let processor = known.unwrap_or_else(|| format!("the processor with the number {number}"));
    Err(format!("is for {processor}, and this build is for x86-64"))
}

/// Returns the names of an index: it has their number, highest byte first, a place for each, and
/// then the names, each with a zero after it.
fn indexed(index: &[u8]) -> Vec<&[u8]> {
    let (count, rest) = match index {
        [a, b, c, d, rest @ ..] => (u32::from_be_bytes([*a, *b, *c, *d]) as usize, rest),
        _ => (0, index),
    };
    rest.get(4 * count..).unwrap_or(&[]).split(|&byte| byte == 0).collect()
}

/// Refuses an archive without one of the functions that this crate declares.
fn judge_functions(found: &[&[u8]]) -> Result<(), String> {
    let declared = DECLARATIONS.lines().filter_map(|line| line.trim_start().strip_prefix("fn "));
    let names = declared.filter_map(|line| line.split('(').next());
    let wanted: Vec<&str> = names.filter(|name| name.starts_with("belfry_")).collect();
    let missing: Vec<&str> =
        wanted.iter().copied().filter(|name| !found.contains(&name.as_bytes())).collect();
    if missing.is_empty() {
        return Ok(());
    }
    if missing.len() == wanted.len() {
        return Err("is no archive of Belfrychest: it has none of its functions".to_string());
    }
    Err(format!("is an archive of another version: it has no {}", missing.join(", ")))
}
