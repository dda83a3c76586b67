//! Each answer of document 01's table in words, and the limits of a rule.

mod common;
use common::{sample, Room, ENTRIES};

/// A room with K1 alone.
fn one_entry(test: &str) -> Room {
    let room = Room::new(test);
    let two_lines: Vec<String> = sample(ENTRIES).lines().take(2).map(String::from).collect();
    room.write(ENTRIES, two_lines.join("\n"));
    room
}

/// What is said of K1 when the program answers this line.
fn said(room: &Room, line: &str) -> String {
    room.fake_says(&format!("{line}\n"));
    let ran = room.check(&[]);
    assert_eq!((ran.status, ran.complained.as_str()), (0, ""), "{line}");
    ran.said
}

/// Document 01's table.
const MEANINGS: [(u32, &str); 26] = [
    (100, "compared, neither high nor low"),
    (101, "age missing"),
    (102, "sex missing"),
    (103, "HPK missing"),
    (104, "PRK missing"),
    (105, "weight missing"),
    (106, "surface missing"),
    (110, "no GPK"),
    (111, "GPK not in 640"),
    (112, "sex not allowed"),
    (113, "no setting in 642"),
    (114, "no row for the age"),
    (115, "no row for the frequency: only the count differs"),
    (116, "no row for the frequency: only the unit differs"),
    (117, "no row for the frequency: count and unit differ"),
    (118, "no row for the weight"),
    (119, "no row for the surface"),
    (120, "over 512 rows in the category"),
    (121, "table not whole rows, or too long"),
    (122, "field out of range"),
    (123, "several rows where one is needed"),
    (124, "needed row absent"),
    (125, "entry out of range"),
    (126, "unit row absent"),
    (127, "amount zero"),
    (128, "amount (CDHOEV) above 9,999,999,999"),
];

#[test]
fn every_answer() {
    let room = one_entry("every_answer");
    for (answer, meaning) in MEANINGS {
        let rest = "text 77; limits not reached; basis 0; category 0; rule 0; high 0; low 0\n";
        assert_eq!(
            said(&room, &format!("{answer} 77 0 0 0 0 0 0 0")),
            format!("K1: {answer} {meaning}; {rest}")
        );
    }
}

#[test]
fn no_other_answer() {
    let room = one_entry("no_other_answer");
    // 133 is of an entry that gives an HPK (tests/hpk.rs).
    let is_other = |number: &u32| *number != 133 && MEANINGS.iter().all(|(answer, _)| answer != number);
    for number in (0..300).filter(is_other) {
        room.fake_says(&format!("{number} 0 0 0 0 0 0 0 0\n"));
        let ran = room.check(&[]);
        assert_eq!((ran.status, ran.said.as_str()), (1, ""), "{number}");
        assert!(ran.complained.contains(&format!("document 01 has no answer {number}")));
    }
}

#[test]
fn the_table_of_a_refusal() {
    let room = one_entry("the_table_of_a_refusal");
    for table in [640, 641, 642, 643, 649, 730, 70] {
        let line = said(&room, &format!("122 0 {table} 0 0 0 0 0 0"));
        assert!(line.starts_with(&format!("K1: 122 field out of range (table {table}); text 0;")), "{line}");
    }
}

#[test]
fn high_and_low() {
    let room = one_entry("high_and_low");
    let high = [", highest dose above the norm maximum", ", highest dose above the absolute maximum"];
    let low = ", lowest dose below the norm minimum";
    let found = [
        ((0, 0), ", neither high nor low".to_string()),
        ((1, 0), high[0].to_string()),
        ((2, 0), high[1].to_string()),
        ((0, 1), low.to_string()),
        ((1, 1), format!("{}{low}", high[0])),
        ((2, 1), format!("{}{low}", high[1])),
    ];
    for ((high, low), words) in found {
        let line = said(&room, &format!("100 0 0 1500 33784 1 {high} {low} 0"));
        assert!(line.starts_with(&format!("K1: 100 compared{words}; text 0; ")), "{line}");
        assert!(line.ends_with(&format!("; rule 1; high {high}; low {low}\n")), "{line}");
    }
}

#[test]
fn limits_are_those_of_the_rule_in_649() {
    let room = one_entry("limits_are_those_of_the_rule");
    let header = "GPDDNR,norm minimum,norm maximum,absolute maximum\n";
    room.write("649.csv", format!("{header}7,1,20,300\n8,999999999,0,1000\n9,1,2,3\n9,1,2,3\n"));
    let limits = [
        (7, "limits in unit 233: norm minimum 0.001, norm maximum 0.020, absolute maximum 0.300;"),
        (8, "limits in unit 233: norm minimum 999999.999, norm maximum none, absolute maximum 1.000;"),
        (9, "limits: several rows in 649;"),
        (10, "limits: no row in 649;"),
        (0, "limits not reached;"),
    ];
    for (rule, words) in limits {
        let line = said(&room, &format!("100 0 0 1500 33784 {rule} 0 0 0"));
        assert!(line.contains(&format!("; text 0; {words} basis 1500;")), "{line}");
    }
}

#[test]
fn the_unit_is_the_base_unit() {
    let room = one_entry("the_unit_is_the_base_unit");
    let entry = "K1,103136,,,240,,75000,,3,0,0,0,2,19,2000,2000,303,245,1,216267,on,2";
    room.write(ENTRIES, format!("{}\n{entry}\n", sample(ENTRIES).lines().next().unwrap()));
    assert!(said(&room, "100 0 0 1500 33784 1 0 0 0").contains("limits in unit 245: norm minimum 0.500"));
}
