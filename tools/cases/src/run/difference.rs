//! A difference between two programs: the smallest piece that shows it, and the command that repeats it.

use super::program::{self, this};
use super::smallest::{differs, smallest, Piece};
use std::fs;
use std::path::Path;

/// Where the smallest piece is written, and by which command it is compared again.
#[derive(Clone, Copy)]
pub struct Report<'a> {
    pub folder: &'a Path,
    /// None: this program's `again`.
    pub again: Option<&'a str>,
}

/// Pieces whose smallest are looked for: the smallest of those that differ.
const TRIED: usize = 3;

/// `found` are the places of pieces that differ; `name` says which one a place is.
pub fn difference<P: Piece>(
    program: &str,
    pieces: &[P],
    found: &[usize],
    name: impl Fn(usize) -> String,
    report: &Report,
) -> Result<String, String> {
    let bytes = |piece: &P| P::joined(std::slice::from_ref(piece));
    let mut by_size = found.to_vec();
    by_size.sort_by_key(|place| bytes(&pieces[*place]).len());
    let mut tried: Vec<(usize, P)> = vec![];
    for place in by_size {
        if tried.len() < TRIED && differs(program, &pieces[place])? {
            tried.push((place, smallest(program, pieces[place].clone())?));
        }
    }
    let Some((place, piece)) = tried.into_iter().min_by_key(|(_, piece)| bytes(piece).len()) else {
        let again = written(program, &P::joined(pieces), P::OF, report)?;
        return Ok(format!("none of them differs by itself\n{again}"));
    };
    let again = written(program, &bytes(&piece), P::OF, report)?;
    Ok(format!("the smallest that was found, made of {}:\n{}{again}", name(place), both(program, &piece)?))
}

/// The piece with the lines of both programs.
pub fn both<P: Piece>(program: &str, piece: &P) -> Result<String, String> {
    let alone = std::slice::from_ref(piece);
    let output = program::output(program, &P::joined(alone))?;
    let text = |bytes: &[u8]| String::from_utf8_lossy(bytes).to_string();
    let ended = output.ended.err().map_or(String::new(), |ended| format!("ended:   {ended}\n"));
    Ok(piece.shown(&text(&P::lines(alone).concat()), &text(&output.bytes)) + &ended)
}

/// Writes the piece, and says how it is compared again.
fn written(program: &str, bytes: &[u8], of: &str, report: &Report) -> Result<String, String> {
    let file = report.folder.join(of);
    let failed = |error: std::io::Error| format!("{}: {error}", file.display());
    fs::create_dir_all(report.folder).map_err(failed)?;
    fs::write(&file, bytes).map_err(failed)?;
    let again = match report.again {
        Some(again) => format!("{again} {of} {}", file.display()),
        None => format!("{} again {of} '{program}' {}", this(), file.display()),
    };
    Ok(format!("repeat:  {again}"))
}
