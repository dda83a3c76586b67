//! What the program `counts` writes is checked: 131 exactly for the ranges that must be refused, and one sound line for
//! each count of the others. Anything else fails, and nothing is printed, not even what `answers` said.

mod common;
use common::{k1_with, ran, Room, ENTRIES, FAKE, FAKE_COUNTS};

const COMPARED: &str = "100 0 0 1500 33784 1 0 0 0";
const DIFFERS: &str = "115 24 0 1500 33784 0 0 0 0";
/// The lines that are due, in the order of the entries with a range.
const SOUND: [&str; 5] = [DIFFERS, COMPARED, DIFFERS, "131", COMPARED];

fn room(test: &str) -> Room {
    let room = Room::new(test);
    room.write(ENTRIES, k1_with(&[("A", "1-3"), ("B", "3-1"), ("C", "2"), ("D", "2-2")]));
    room.fake_says(&format!("{COMPARED}\n"));
    room.counts_says(&joined(&SOUND));
    room
}

fn joined(lines: &[&str]) -> String {
    lines.iter().map(|line| format!("{line}\n")).collect()
}

fn fails(room: &Room, lines: &str, words: &str) {
    room.counts_says(lines);
    let ran = room.check(&[]);
    assert_eq!((ran.status, ran.said.as_str()), (1, ""), "{lines}: {}", ran.complained);
    assert!(ran.complained.contains(words), "`{words}` is not in: {}", ran.complained);
    assert!(ran.complained.contains("fake_counts.sh"), "{}", ran.complained);
}

/// The sound lines with another at this place, counted from 1.
fn fails_at(room: &Room, place: usize, line: &str, words: &str) {
    let mut lines = SOUND;
    lines[place - 1] = line;
    fails(room, &joined(&lines), &format!("line {place} of the program"));
    fails(room, &joined(&lines), words);
}

#[test]
fn the_sound_lines_stand_in_the_order_of_the_entries() {
    let room = room("the_sound_lines");
    let ran = room.check(&["--csv"]);
    assert_eq!((ran.status, ran.complained.as_str()), (0, ""));
    let lines: Vec<&str> = ran.said.lines().skip(1).map(|line| &line[..7]).collect();
    assert_eq!(lines, ["A,1,115", "A,2,100", "A,3,115", "B,,131,", "C,2,100", "D,2,100"]);
}

#[test]
fn too_few_and_too_many_lines() {
    let room = room("too_few_and_too_many_of_counts");
    fails(&room, &joined(&SOUND[..4]), "wrote 4 lines for 3 entries, and owes 5");
    fails(&room, "", "wrote 0 lines for 3 entries, and owes 5");
    fails(&room, &(joined(&SOUND) + COMPARED + "\n"), "line 6 of the program");
    fails(&room, &(joined(&SOUND) + "131\n"), "is one line too many: 3 entries were sent");
    fails(&room, joined(&SOUND[..4]).trim_end(), "ended inside a line");
}

#[test]
fn answers_where_131_is_due() {
    let room = room("answers_where_131_is_due");
    let lines = [DIFFERS, "131 0 0 0 0 0 0 0 0", "132", "0131", "+131", "131 ", " 131", "131\r", "", "125"];
    for line in lines {
        fails_at(&room, 4, line, "is not 131, which the range 3-1 must get");
    }
    // the answers of 3 down to 1, as if it were a range
    fails(&room, &joined(&[DIFFERS, COMPARED, DIFFERS, DIFFERS, COMPARED, DIFFERS, COMPARED]), "line 4 of");
}

#[test]
fn a_refusal_where_answers_are_due() {
    let room = room("a_refusal_where_answers_are_due");
    for place in [1, 2, 3, 5] {
        for refusal in ["131", "132"] {
            fails_at(&room, place, refusal, "is not nine numbers");
            fails_at(&room, place, &format!("{refusal} 0 0 0 0 0 0 0 0"), "document 01 has no answer");
        }
    }
    fails(&room, &joined(&["131", "131", COMPARED]), "line 1 of the program");
}

#[test]
fn lines_that_are_no_answer() {
    let room = room("lines_of_counts_that_are_no_answer");
    for place in 1..=SOUND.len() {
        fails_at(&room, place, "broken", "it says `broken`");
    }
    fails_at(&room, 2, "100 0 0 1500 33784 1 0 0", "is not nine numbers");
    fails_at(&room, 2, "100 0 0 1500 33784 1 0 0 0 0", "is not nine numbers");
    fails_at(&room, 2, "100 0 0 1500 33784 1 3 0 0", "high is at most 2");
}

#[test]
fn one_count_never_gets_131() {
    let room = room("one_count_never_gets_131");
    room.fake_says("131\n");
    let ran = room.check(&[]);
    assert_eq!((ran.status, ran.said.as_str()), (1, ""));
    assert!(ran.complained.contains("`131` is not nine numbers"), "{}", ran.complained);
}

#[test]
fn a_program_that_fails_after_all_lines() {
    let room = room("counts_that_fails");
    for variable in ["FAKE_STATUS", "FAKE_COUNTS_STATUS"] {
        let mut command = room.check_without_programs();
        command.args(["--program", FAKE, "--counts-program", FAKE_COUNTS]).env(variable, "3");
        let ran = ran(&mut command);
        assert_eq!((ran.status, ran.said.as_str()), (1, ""), "{variable}");
        assert!(ran.complained.contains("failed (exit status: 3)"), "{}", ran.complained);
    }
}
