//! What the proved program writes is checked; anything but one sound line for each entry fails, and nothing is printed.

mod common;
use common::{paper_lines, ran, Room, FAKE};

fn fails(room: &Room, lines: &str, words: &str) {
    room.fake_says(lines);
    let ran = room.check(&[]);
    assert_eq!((ran.status, ran.said.as_str()), (1, ""), "{words}: {}", ran.complained);
    assert!(ran.complained.contains(words), "`{words}` is not in: {}", ran.complained);
}

#[test]
fn too_few_and_too_many_lines() {
    let room = Room::new("too_few_and_too_many_lines");
    let lines = paper_lines();
    let short = lines.lines().take(21).map(|line| format!("{line}\n")).collect::<String>();
    fails(&room, &short, "wrote 21 lines for 22 entries");
    fails(&room, "", "wrote 0 lines for 22 entries");
    fails(&room, &format!("{lines}100 0 0 0 0 0 0 0 0\n"), "line 23 of the program");
    fails(&room, lines.trim_end(), "ended inside a line");
}

#[test]
fn lines_that_are_no_answer() {
    let room = Room::new("lines_that_are_no_answer");
    fails(&room, "broken\n", "it says `broken`");
    fails(&room, "100 0 0 0 0 0 0 0 0\nbroken\n", "line 2 of the program");
    let bad = [
        "",
        "100 0 0 0 0 0 0",
        "100 0 0 0 0 0 0 0 0 0",
        "100  0 0 0 0 0 0 0",
        "100 0 0 0 0 0 0 0 0 ",
        "100 0 0 0 0 0 0 0 x",
        "100 0 0 0 0 0 0 +1",
        "100 0 0 0 0 0 0 0 0\r",
        "100 0 0 0 0 4294967296 0 0 0",
        "100,0,0,0,0,0,0,0",
    ];
    for line in bad {
        fails(&room, &format!("{line}\n"), "is not nine numbers");
    }
    fails(&room, "100 0 0 0 0 0 3 0 0\n", "high is at most 2");
    fails(&room, "100 0 0 0 0 0 0 2 0\n", "low at most 1");
}

#[test]
fn a_program_that_fails_after_all_lines() {
    let room = Room::new("a_program_that_fails");
    let mut command = room.dose();
    command.arg("check").arg(&room.folder).arg(room.folder.join("entries.csv")).args(["--program", FAKE]);
    let ran = ran(command.env("FAKE_STATUS", "3"));
    assert_eq!((ran.status, ran.said.as_str()), (1, ""));
    assert!(ran.complained.contains("failed (exit status: 3)"), "{}", ran.complained);
}

#[test]
fn a_program_that_is_not_there_or_none() {
    let room = Room::new("a_program_that_is_not_there");
    for (program, words) in [("absent", "cannot be found"), ("says", "cannot be started")] {
        let mut command = room.dose();
        command.arg("check").arg(&room.folder).arg(room.folder.join("entries.csv"));
        let ran = ran(command.arg("--program").arg(room.folder.join(program)));
        assert_eq!((ran.status, ran.said.as_str()), (1, ""));
        assert!(ran.complained.contains(words), "{}", ran.complained);
    }
}

#[test]
fn wrong_words_on_the_command_line() {
    let room = Room::new("wrong_words");
    let lines: [&[&str]; 18] = [
        &[],
        &["chek"],
        &["check"],
        &["check", "a"],
        &["check", "a", "b", "c"],
        &["check", "a", "b", "--program"],
        &["check", "a", "b", "--cvs"],
        &["check", "a", "b", "--counts-program"],
        &["check", "a", "b", "--edition"],
        &["units", "a", "--csv"],
        &["units", "a", "--edition", "1"],
        &["units", "a", "--counts-program", "b"],
        &["check", "a", "b", "--calls-program"],
        &["units", "a", "--calls-program", "b"],
        &["products"],
        &["products", "a", "--csv"],
        &["products", "a", "--edition", "2"],
        &["products", "a", "b"],
    ];
    for words in lines {
        let ran = ran(room.dose().args(words));
        assert_eq!((ran.status, ran.said.as_str()), (2, ""), "{words:?}");
        assert!(ran.complained.contains("See: dose help"), "{words:?}");
    }
    let ran = ran(room.dose().arg("help"));
    assert_eq!((ran.status, ran.complained.as_str()), (0, ""));
    assert!(ran.said.contains("dose check TABLES ENTRIES"));
}
