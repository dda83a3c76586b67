//! Starting a program for x86-64 where the machine itself does not: under the loader of the Rattle kit and, on another
//! processor, an emulator, the kit's if it has one.

use std::env::consts::ARCH;
use std::path::{Path, PathBuf};
use std::process::Command;

const EMULATOR: &str = "qemu-x86_64";
const LOADER: &str = "ld-linux-x86-64.so.2";

pub fn command(program: &Path) -> Result<Command, String> {
    let tools = home().map(|home| home.join("toolchain"));
    let tools = tools.filter(|tools| tools.join("lib").join(LOADER).is_file());
    let own = tools.as_ref().map(|tools| tools.join("bin").join(EMULATOR)).filter(|path| path.is_file());
    let emulator = own.or_else(|| on_path(EMULATOR));
    let mut words: Vec<PathBuf> = Vec::new();
    if ARCH != "x86_64" {
        words.push(emulator.ok_or_else(|| nothing_found(program))?);
    }
    match tools.map(|tools| tools.join("lib")) {
        Some(lib) => words.extend([lib.join(LOADER), "--library-path".into(), lib]),
        None if words.is_empty() => return Err(nothing_found(program)),
        None => {} // an emulator alone serves where the machine has libraries for x86-64
    }
    words.push(program.to_path_buf());
    let mut command = Command::new(&words[0]);
    command.args(&words[1..]);
    // settings of the emulator must not change what the program does
    for (name, _) in std::env::vars_os().filter(|(name, _)| name.to_string_lossy().starts_with("QEMU_")) {
        command.env_remove(name);
    }
    // a plain processor: on the emulator's own choice libc copies by string instructions, which the emulator does byte by byte
    command.env("QEMU_CPU", "qemu64");
    Ok(command)
}

fn nothing_found(program: &Path) -> String {
    format!(
        "the program {} is for x86-64, and nothing was found that runs it on this machine ({ARCH}): \
         neither rt (on the PATH, or its folder in RATTLE_HOME) nor {EMULATOR} on the PATH",
        program.display()
    )
}

/// The kit's folder: RATTLE_HOME, or the folder above the one that has `rt`.
fn home() -> Option<PathBuf> {
    if let Some(home) = std::env::var_os("RATTLE_HOME") {
        return Some(home.into());
    }
    let rt = on_path("rt")?.canonicalize().ok()?;
    Some(rt.parent()?.parent()?.to_path_buf())
}

fn on_path(name: &str) -> Option<PathBuf> {
    let path = std::env::var_os("PATH")?;
    std::env::split_paths(&path).map(|folder| folder.join(name)).find(|file| file.is_file())
}
