//! Seams that are welded already: a line "SEAM FACE" for each, like "17 A". Empty lines and lines from # on are left out.
use crate::fault::Fault;
use crate::files::read_at_most;
use crate::panel::Panel;
use std::path::Path;

/// 4096 lines and room for remarks.
const ROOM: usize = 1 << 20;

/// The face's letter.
pub fn letter(spin: i8) -> char {
    if spin > 0 {
        'A'
    } else {
        'B'
    }
}

/// One line, or nothing where there is no pin on it.
fn line(text: &str, panel: &Panel) -> Result<Option<(usize, i8)>, String> {
    let text = text.split('#').next().unwrap_or_default();
    let words: Vec<&str> = text.split_whitespace().collect();
    let (seam, face) = match words[..] {
        [] => return Ok(None),
        [seam, face] => (seam, face),
        _ => return Err("a pin is a seam and its face, like 17 A".into()),
    };
    let face = match face {
        "A" => 1,
        "B" => -1,
        _ => return Err(format!("{face:?} is no face: a seam is welded from A or from B")),
    };
    match seam.parse::<usize>() {
        Ok(number) if (1..=panel.n).contains(&number) => Ok(Some((number - 1, face))),
        Ok(_) => Err(format!("seam {seam} is not on the panel, whose seams are 1 to {}", panel.n)),
        Err(_) => Err(format!("{seam:?} is no seam's number")),
    }
}

/// Pins these seams on the panel.
pub fn pin(panel: &mut Panel, text: &str) -> Result<(), String> {
    for (k, text) in text.lines().enumerate() {
        let Some((site, face)) = line(text, panel).map_err(|why| format!("line {}: {why}", k + 1))? else { continue };
        if panel.pins[site] == 1 {
            return Err(format!("line {}: seam {} is pinned in a line before", k + 1, site + 1));
        }
        (panel.pins[site], panel.faces[site]) = (1, face);
    }
    Ok(())
}

/// Pins what a file says.
pub fn read(panel: &mut Panel, path: &Path) -> Result<(), Fault> {
    let bytes = read_at_most(path, ROOM)?;
    let text = String::from_utf8(bytes).map_err(|_| Fault::input(format!("{} is no text", path.display())))?;
    pin(panel, &text).map_err(|why| Fault::input(format!("{}, {why}", path.display())))
}
