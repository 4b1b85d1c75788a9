//! What is wrong with a list, and in which line. The library refuses a list with a number; a person wants the place.
//!
//! The library's answer decides. This plain reading only finds the words for a refusal, and the one thing that the library cannot
//! know: that the panel has edges, over which no pair of neighbours lies.
use crate::grid::Grid;
use std::collections::HashMap;

/// A line, counted from 1, and what is wrong there.
#[derive(Clone, Debug, PartialEq, Eq)]
pub struct Wrong {
    pub line: usize,
    pub why: String,
}

fn wrong<T>(line: usize, why: impl Into<String>) -> Result<T, Wrong> {
    Err(Wrong { line, why: why.into() })
}

/// The largest size of a coupling, of document 01.
const LARGEST: i64 = 1_000_000;

/// A piece of text as it can be shown in a sentence.
fn shown(bytes: &[u8]) -> String {
    let text: String = String::from_utf8_lossy(bytes).chars().take(24).flat_map(char::escape_debug).collect();
    if bytes.len() > 24 {
        format!("\"{text}..\"")
    } else {
        format!("\"{text}\"")
    }
}

/// Why these bytes are no number as lists have them, or nothing.
fn misspelt(bytes: &[u8], signed: bool) -> Option<String> {
    let digits = bytes.strip_prefix(b"-").filter(|_| signed).unwrap_or(bytes);
    let why = match digits {
        [] => "an empty place where a number should stand (one blank stands between two numbers)",
        _ if !digits.iter().all(u8::is_ascii_digit) => "no whole number",
        [b'0', _, ..] => "a number with a leading zero",
        [b'0'] if digits.len() < bytes.len() => "a zero with a minus",
        _ => return None,
    };
    Some(if digits.is_empty() { why.to_string() } else { format!("{} is {why}", shown(bytes)) })
}

/// A number of any length; what is too large for i64 counts as the largest there is.
fn value(bytes: &[u8]) -> i64 {
    let text = String::from_utf8_lossy(bytes);
    text.parse().unwrap_or(if text.starts_with('-') { i64::MIN } else { i64::MAX })
}

/// The numbers of a line, of which the last may have a minus where `signed`.
fn numbers(line: usize, text: &[u8], wanted: usize, signed: bool, form: &str) -> Result<Vec<i64>, Wrong> {
    if text.ends_with(b"\r") {
        return wrong(line, "it ends in a carriage return and a line feed, and a list has line feeds alone");
    }
    if text.is_empty() {
        return wrong(line, format!("it is empty, and {form} should stand there"));
    }
    let words: Vec<&[u8]> = text.split(|&byte| byte == b' ').collect();
    for (k, word) in words.iter().enumerate() {
        if let Some(why) = misspelt(word, signed && k + 1 == wanted) {
            return wrong(line, why);
        }
    }
    if words.len() != wanted {
        return wrong(line, format!("it has {} numbers, and {form} should stand there", words.len()));
    }
    Ok(words.iter().map(|word| value(word)).collect())
}

/// The first line: n is the grid's, and the m that it promises.
fn first_line(text: &[u8], grid: Grid) -> Result<i64, Wrong> {
    let first = numbers(1, text, 2, false, "the number of seams and the number of lines that follow")?;
    let seams = grid.seams();
    if first[0] != seams as i64 {
        return wrong(1, format!("the list has {} seams, and a grid of {grid} has {seams}", first[0]));
    }
    Ok(first[1])
}

/// One pair: two seams of the panel that are neighbours and were not named before.
fn pair(line: usize, text: &[u8], grid: Grid, seen: &mut HashMap<(i64, i64), usize>) -> Result<i64, Wrong> {
    let numbers = numbers(line, text, 3, true, "two seams and the distortion they share")?;
    let (i, j) = (numbers[0], numbers[1]);
    let seams = grid.seams() as i64;
    if let Some(outside) = [i, j].iter().find(|&&seam| seam < 1 || seam > seams) {
        return wrong(line, format!("seam {outside} is not on the panel, whose seams are 1 to {seams}"));
    }
    if !grid.neighbours(i as usize - 1, j as usize - 1) {
        return wrong(line, format!("seams {i} and {j} are no neighbours in a grid of {grid}"));
    }
    if let Some(before) = seen.insert((i.min(j), i.max(j)), line) {
        return wrong(line, format!("seams {i} and {j} stand in line {before} already"));
    }
    Ok(numbers[2])
}

/// The first fault of a list for this grid. A coupling that is too large is told last, as the library does.
pub fn diagnose(text: &[u8], grid: Grid) -> Result<(), Wrong> {
    if text.is_empty() {
        return wrong(1, "the list is empty");
    }
    let mut lines: Vec<&[u8]> = text.split(|&byte| byte == b'\n').collect();
    let last = lines.pop().unwrap_or_default();
    if lines.is_empty() {
        lines.push(last);
    }
    let promised = first_line(lines[0], grid)?;
    let (mut seen, mut too_large) = (HashMap::new(), None);
    for (k, text) in lines.iter().enumerate().skip(1) {
        if k as i64 > promised {
            return wrong(k + 1, format!("line 1 says that {promised} lines follow, and this is one more"));
        }
        let coupling = pair(k + 1, text, grid, &mut seen)?;
        if coupling.unsigned_abs() > LARGEST.unsigned_abs() && too_large.is_none() {
            too_large = Some((k + 1, shown(text.rsplit(|&byte| byte == b' ').next().unwrap_or_default())));
        }
    }
    if !last.is_empty() {
        return wrong(lines.len() + usize::from(lines[0] != last), "the last line does not end in a line feed: the list may be cut off");
    }
    let follow = lines.len() - 1;
    if (follow as i64) < promised {
        return wrong(1, format!("it says that {promised} lines follow, and there are {follow}"));
    }
    match too_large {
        Some((line, coupling)) => wrong(line, format!("the distortion {coupling} is above {LARGEST} in size")),
        None => Ok(()),
    }
}

#[cfg(test)]
mod tests {
    use super::*;

    fn said(text: &str) -> String {
        let wrong = diagnose(text.as_bytes(), Grid { width: 3, height: 2 }).unwrap_err();
        format!("{}: {}", wrong.line, wrong.why)
    }

    #[test]
    fn a_place_and_a_reason() {
        assert_eq!(diagnose(b"6 2\n1 2 -5\n4 1 0\n", Grid { width: 3, height: 2 }), Ok(()));
        assert_eq!(said(""), "1: the list is empty");
        assert_eq!(said("6 0"), "1: the last line does not end in a line feed: the list may be cut off");
        assert_eq!(said("6 1\n1 2 5"), "2: the last line does not end in a line feed: the list may be cut off");
        assert_eq!(said("7 0\n"), "1: the list has 7 seams, and a grid of 3x2 has 6");
        assert_eq!(said("6 1\r\n1 2 5\r\n"), "1: it ends in a carriage return and a line feed, and a list has line feeds alone");
        assert_eq!(said("6 1\n1 2 +5\n"), "2: \"+5\" is no whole number");
        assert_eq!(said("6 1\n1 02 5\n"), "2: \"02\" is a number with a leading zero");
        assert_eq!(said("6 1\n1 2 -0\n"), "2: \"-0\" is a zero with a minus");
        assert_eq!(said("6 1\n1 2 -\n"), "2: an empty place where a number should stand (one blank stands between two numbers)");
        assert_eq!(said("6 1\n1  2 5\n"), "2: an empty place where a number should stand (one blank stands between two numbers)");
        assert_eq!(said("6 1\n\n"), "2: it is empty, and two seams and the distortion they share should stand there");
        assert_eq!(said("6 1\n1 2\n"), "2: it has 2 numbers, and two seams and the distortion they share should stand there");
        assert_eq!(said("6 1\n7 4 5\n"), "2: seam 7 is not on the panel, whose seams are 1 to 6");
        assert_eq!(said("6 1\n1 3 5\n"), "2: seams 1 and 3 are no neighbours in a grid of 3x2");
        assert_eq!(said("6 2\n1 2 5\n2 1 5\n"), "3: seams 2 and 1 stand in line 2 already");
        assert_eq!(said("6 0\n1 2 5\n"), "2: line 1 says that 0 lines follow, and this is one more");
        assert_eq!(said("6 2\n1 2 5\n"), "1: it says that 2 lines follow, and there are 1");
        assert_eq!(said("6 1\n1 2 1000001\n"), "2: the distortion \"1000001\" is above 1000000 in size");
        assert_eq!(said("6 2\n1 2 1000001\n1 2 5\n"), "3: seams 1 and 2 stand in line 2 already");
    }
}
