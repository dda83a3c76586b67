//! A missing, extra or exchanged column is refused by its name and position, and nothing is checked.

mod common;
use common::{sample, Room, ENTRIES, TABLES};

/// Each file with the names of its header.
fn headers() -> Vec<(&'static str, Vec<String>)> {
    let names = |file| sample(file).lines().next().unwrap().split(',').map(String::from).collect();
    TABLES.into_iter().chain([ENTRIES]).map(|file| (file, names(file))).collect()
}

/// Refuses the file under another header.
fn refused(room: &Room, file: &str, header: &[String], words: &[&str]) {
    let whole = sample(file);
    let (_, rows) = whole.split_once('\n').unwrap();
    room.write(file, format!("{}\n{rows}", header.join(",")));
    let mut all = vec![file, "line 1"];
    all.extend(words);
    room.refused(&all);
    room.write(file, whole);
}

#[test]
fn the_names_are_the_papers() {
    let names: Vec<String> = headers().into_iter().map(|(_, names)| names.join(",")).collect();
    assert_eq!(
        names,
        [
            "GPKODE,GPDGST,GPRISC",
            "GPKODE,PRKODE,HPKODE,GPDCOD,GPDBAS",
            "GPDBAS,GPDZCO,ICPCNR1,ICPCTO,GPKTWG,GPDCAT",
            "GPDCAT,GPDLFM,GPDLFX,GPDFAA,GPDFEE,GPDKGM,GPDKGX,surface low,surface high,GPDDNR",
            "GPDDNR,norm minimum,norm maximum,absolute maximum",
            "SRTCDE,CODE,CDHOEV,CDEENH",
            "HPKODE,PRKODE,HPANPR,GPKODE,PRANGP,HPANGP",
            "name,GPK,PRK,HPK,age,sex,weight,surface,care group,reason,ICPCTO,route,count,time unit,\
             lowest,highest,entered unit,base unit,SRTCDE,CODE,months,edition",
        ]
    );
}

#[test]
fn a_missing_column() {
    let room = Room::new("a_missing_column");
    for (file, names) in headers() {
        for place in 0..names.len() {
            if ["name", "edition"].contains(&names[place].as_str()) {
                continue; // they may be left out, with their cells
            }
            let mut header = names.clone();
            let name = header.remove(place);
            let found = match header.get(place) {
                Some(next) => format!("but {next} stands there"),
                None => "but the header ends before it".to_string(),
            };
            let said = format!("{name} is missing: column {} must be {name}, {found}", place + 1);
            refused(&room, file, &header, &[&said]);
        }
    }
}

#[test]
fn an_extra_column() {
    let room = Room::new("an_extra_column");
    for (file, names) in headers() {
        for place in 0..=names.len() {
            if names[0] == "name" && place == 0 {
                continue; // the next test
            }
            let mut header = names.clone();
            header.insert(place, "colour".to_string());
            let said = match names.get(place).map(String::as_str) {
                Some("edition") => format!("colour is extra: column {} may only be quiet", place + 1),
                Some(name) => format!("colour is extra: column {} must be {name}", place + 1),
                None => format!("colour is extra: there must be no column {}", place + 1),
            };
            refused(&room, file, &header, &[&said]);
        }
    }
}

#[test]
fn a_column_before_the_name_makes_the_name_extra_too() {
    let room = Room::new("a_column_before_the_name");
    let (file, mut header) = headers().pop().unwrap();
    header.insert(0, "colour".to_string());
    refused(
        &room,
        file,
        &header,
        &["colour is extra: column 1 must be GPK", "name is extra: column 2 must be PRK"],
    );
}

#[test]
fn exchanged_columns() {
    let room = Room::new("exchanged_columns");
    for (file, names) in headers() {
        for place in 1..names.len() {
            if names[place - 1] == "name" {
                continue;
            }
            let mut header = names.clone();
            header.swap(place - 1, place);
            let (one, other) = (&names[place - 1], &names[place]);
            let first =
                format!("columns are exchanged: column {place} must be {one}, but {other} stands there");
            let second = format!("column {} must be {other}, but {one} stands there", place + 1);
            refused(&room, file, &header, &[&first, &second]);
        }
    }
}

#[test]
fn the_kilogram_bounds_one_column_over() {
    let room = Room::new("the_kilogram_bounds");
    let header = "GPDCAT,GPDLFM,GPDLFX,GPDFAA,GPDKGM,GPDKGX,GPDFEE,surface low,surface high,GPDDNR";
    let header: Vec<String> = header.split(',').map(String::from).collect();
    let said = [
        "column 5 must be GPDFEE, but GPDKGM stands there",
        "column 6 must be GPDKGM, but GPDKGX stands there",
        "column 7 must be GPDKGX, but GPDFEE stands there",
    ];
    refused(&room, "643.csv", &header, &said);
}

#[test]
fn a_column_twice() {
    let room = Room::new("a_column_twice");
    let header = ["GPKODE", "GPDGST", "GPRISC", "GPDGST"].map(String::from);
    refused(&room, "640.csv", &header, &["GPDGST is extra: it stands in column 2 and again in column 4"]);
}

#[test]
fn a_nameless_column_semicolons_or_no_header() {
    let room = Room::new("a_nameless_column");
    let header = ["GPKODE,GPDGST,GPRISC,"].map(String::from);
    refused(&room, "640.csv", &header, &["a column without a name is extra: there must be no column 4"]);
    let header = ["GPKODE;GPDGST;GPRISC"].map(String::from);
    refused(&room, "640.csv", &header, &["GPKODE is missing", "columns must be separated by commas"]);
    room.write("640.csv", "103136,3,0\n");
    room.refused(&["640.csv, line 1: GPKODE is missing: column 1 must be GPKODE, but 103136 stands there"]);
    room.write("640.csv", "");
    room.refused(&["640.csv, line 1: GPKODE is missing: column 1 must be GPKODE, but has no name"]);
}

#[test]
fn faults_of_all_files_are_told_together() {
    let room = Room::new("faults_of_all_files");
    room.write("640.csv", "GPKODE,GPRISC,GPDGST\n");
    room.write("649.csv", "GPDDNR,norm minimum,norm maximum\n");
    std::fs::remove_file(room.folder.join("730.csv")).unwrap();
    room.refused(&[
        "640.csv, line 1: columns are exchanged",
        "absolute maximum is missing",
        "730.csv: cannot be read",
    ]);
}
