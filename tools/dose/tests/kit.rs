//! On another processor a program for x86-64 runs under an emulator and the kit's loader.
#![cfg(not(target_arch = "x86_64"))]

mod common;
use common::{ran, sample, Room, ENTRIES, FAKE};
use std::fs;
use std::process::Command;

/// The first bytes of an ELF program for x86-64, enough to be known as one.
const X86_64_HEAD: &[u8] = b"\x7FELF\x02\x01\x01\0\0\0\0\0\0\0\0\0\x03\0\x3E\0";

fn check(room: &Room) -> Command {
    room.write("answers", X86_64_HEAD);
    let mut command = room.dose();
    command.arg("check").arg(&room.folder).arg(room.folder.join(ENTRIES));
    command.arg("--program").arg(room.folder.join("answers")).env("RATTLE_HOME", room.folder.join("kit"));
    command
}

#[test]
fn the_kits_emulator_and_loader() {
    let room = Room::new("the_kits_emulator");
    let tools = room.folder.join("kit/toolchain");
    fs::create_dir_all(tools.join("bin")).unwrap();
    fs::create_dir_all(tools.join("lib")).unwrap();
    fs::write(tools.join("lib/ld-linux-x86-64.so.2"), "").unwrap();
    std::os::unix::fs::symlink(FAKE, tools.join("bin/qemu-x86_64")).unwrap();
    let words = room.folder.join("words");
    let ran = ran(check(&room).env("FAKE_WORDS", &words).env("QEMU_STRACE", "1"));
    assert_eq!((ran.status, ran.said), (0, sample("expected.txt")), "{}", ran.complained);
    let lib = tools.join("lib").display().to_string();
    let program = room.folder.join("answers").canonicalize().unwrap();
    let expected = [
        &format!("{lib}/ld-linux-x86-64.so.2"),
        "--library-path",
        &lib,
        &program.display().to_string(),
        "QEMU_STRACE not set",
    ];
    assert_eq!(fs::read_to_string(words).unwrap().lines().collect::<Vec<_>>(), expected);
}

#[test]
fn neither_kit_nor_emulator() {
    let room = Room::new("neither_kit_nor_emulator");
    let ran = ran(check(&room).env("PATH", &room.folder));
    assert_eq!((ran.status, ran.said.as_str()), (1, ""));
    assert!(ran.complained.contains("nothing was found that runs it on this machine"), "{}", ran.complained);
}
