//! The lent tables as rows with named fields.

use super::cells::{cell, rows};
use super::fields::{CDEENH, CDHOEV};
use super::shape::{misshapen, out_of_range};
use super::test::{Table, Test, TABLES};

pub struct Row640 {
    pub gpkode: u32,
    pub gpdgst: u32,
    pub gprisc: u32,
}

pub struct Row641 {
    pub gpkode: u32,
    pub prkode: u32,
    pub hpkode: u32,
    pub gpdcod: u32,
    pub gpdbas: u32,
}

pub struct Row642 {
    pub gpdbas: u32,
    pub gpdzco: u32,
    pub icpcnr1: u32,
    pub icpcto: u32,
    pub gpktwg: u32,
    pub gpdcat: u32,
}

pub struct Row643 {
    pub gpdcat: u32,
    pub gpdlfm: u32,
    pub gpdlfx: u32,
    pub gpdfaa: u32,
    pub gpdfee: u32,
    pub gpdkgm: u32,
    pub gpdkgx: u32,
    pub surface_low: u32,
    pub surface_high: u32,
    pub gpddnr: u32,
}

#[derive(Clone, Copy, Debug)]
pub struct Row649 {
    pub gpddnr: u32,
    pub minimum: u32,
    pub maximum: u32,
    pub absolute: u32,
}

pub struct Row730 {
    pub srtcde: u32,
    pub code: u32,
    pub cdhoev: u64,
    pub cdeenh: u32,
}

pub struct Row70 {
    pub hpkode: u32,
    pub prkode: u32,
    pub hpanpr: u32,
    pub gpkode: u32,
    pub prangp: u32,
    pub hpangp: u32,
}

/// The tables of a case, read once, with the first 121 and the first 122 among them.
pub struct Lent {
    pub t640: Vec<Row640>,
    pub t641: Vec<Row641>,
    pub t642: Vec<Row642>,
    pub t643: Vec<Row643>,
    pub t649: Vec<Row649>,
    pub t730: Vec<Row730>,
    pub t70: Vec<Row70>,
    pub misshapen: Option<Test>,
    pub out_of_range: Option<Test>,
}

impl Lent {
    /// The tables' bytes in the order 640, 641, 642, 643, 649, 730, 70.
    pub fn new(bytes: [&[u8]; TABLES]) -> Lent {
        let [b640, b641, b642, b643, b649, b730, b70] = bytes;
        Lent {
            t640: rows(b640, Table::T640).map(row640).collect(),
            t641: rows(b641, Table::T641).map(row641).collect(),
            t642: rows(b642, Table::T642).map(row642).collect(),
            t643: rows(b643, Table::T643).map(row643).collect(),
            t649: rows(b649, Table::T649).map(row649).collect(),
            t730: rows(b730, Table::T730).map(row730).collect(),
            t70: rows(b70, Table::T70).map(row70).collect(),
            misshapen: misshapen(bytes),
            out_of_range: out_of_range(bytes),
        }
    }
}

fn row640(row: &[u8]) -> Row640 {
    let cell = |place: usize| cell(Table::T640, row, place) as u32;
    Row640 { gpkode: cell(0), gpdgst: cell(1), gprisc: cell(2) }
}

fn row641(row: &[u8]) -> Row641 {
    let cell = |place: usize| cell(Table::T641, row, place) as u32;
    Row641 { gpkode: cell(0), prkode: cell(1), hpkode: cell(2), gpdcod: cell(3), gpdbas: cell(4) }
}

fn row642(row: &[u8]) -> Row642 {
    let cell = |place: usize| cell(Table::T642, row, place) as u32;
    Row642 { gpdbas: cell(0), gpdzco: cell(1), icpcnr1: cell(2), icpcto: cell(3), gpktwg: cell(4), gpdcat: cell(5) }
}

fn row643(row: &[u8]) -> Row643 {
    let cell = |place: usize| cell(Table::T643, row, place) as u32;
    Row643 {
        gpdcat: cell(0),
        gpdlfm: cell(1),
        gpdlfx: cell(2),
        gpdfaa: cell(3),
        gpdfee: cell(4),
        gpdkgm: cell(5),
        gpdkgx: cell(6),
        surface_low: cell(7),
        surface_high: cell(8),
        gpddnr: cell(9),
    }
}

fn row649(row: &[u8]) -> Row649 {
    let cell = |place: usize| cell(Table::T649, row, place) as u32;
    Row649 { gpddnr: cell(0), minimum: cell(1), maximum: cell(2), absolute: cell(3) }
}

fn row730(row: &[u8]) -> Row730 {
    let cell = |place: usize| cell(Table::T730, row, place);
    Row730 { srtcde: cell(0) as u32, code: cell(1) as u32, cdhoev: cell(CDHOEV), cdeenh: cell(CDEENH) as u32 }
}

fn row70(row: &[u8]) -> Row70 {
    let cell = |place: usize| cell(Table::T70, row, place) as u32;
    Row70 { hpkode: cell(0), prkode: cell(1), hpanpr: cell(2), gpkode: cell(3), prangp: cell(4), hpangp: cell(5) }
}
