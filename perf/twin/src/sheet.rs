//! A bench sheet.

use crate::text::{number, Fault};

/// The parts' names in order, and the holds: a part, and the code of its side.
pub struct Sheet<'a> {
    pub names: Vec<&'a str>,
    pub holds: Vec<(usize, u8)>,
}

/// What a line says.
enum Line<'a> {
    Part(usize, &'a str),
    Hold(usize, u8),
}

fn is_name(field: &[u8]) -> bool {
    (1..=24).contains(&field.len())
        && field.iter().all(|b| b.is_ascii_uppercase() || b.is_ascii_digit() || *b == b'-')
}

fn line(bytes: &[u8]) -> Option<Line<'_>> {
    let mut fields = bytes.split(|b| *b == b'\t');
    let (word, part, last, None) = (fields.next()?, fields.next()?, fields.next()?, fields.next()) else {
        return None;
    };
    let part = number(part)?;
    match (word, last) {
        (b"part", name) if is_name(name) => Some(Line::Part(part, std::str::from_utf8(name).ok()?)),
        (b"hold", b"in") => Some(Line::Hold(part, 1)),
        (b"hold", b"out") => Some(Line::Hold(part, 2)),
        _ => None,
    }
}

impl<'a> Sheet<'a> {
    pub fn read(text: &'a [u8], n: usize) -> Result<Sheet<'a>, Fault> {
        let fault = |refusal, byte| Fault { refusal, byte, rule: 0 };
        if text.len() > 8000 {
            return Err(fault(26, 8000));
        }
        let mut sheet = Sheet { names: Vec::with_capacity(n), holds: Vec::new() };
        let mut at = 0;
        while at < text.len() {
            let rest = &text[at..];
            let end = rest.iter().position(|b| *b == b'\n').ok_or(fault(26, at))?;
            match line(&rest[..end]).ok_or(fault(26, at))? {
                Line::Part(part, name) => {
                    if part != sheet.names.len() + 1 || part > n || !sheet.holds.is_empty() {
                        return Err(fault(27, at));
                    }
                    sheet.names.push(name);
                }
                Line::Hold(part, side) => {
                    if part == 0 || part > n || sheet.holds.iter().any(|hold| hold.0 == part) {
                        return Err(fault(27, at));
                    }
                    sheet.holds.push((part, side));
                }
            }
            at += end + 1;
        }
        if sheet.names.len() < n {
            return Err(fault(27, text.len()));
        }
        Ok(sheet)
    }
}
