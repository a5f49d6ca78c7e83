//! The text of a book.

/// The first fault of a text: the refusal's number, the byte, and the rule being read.
#[derive(Debug)]
pub struct Fault {
    pub refusal: u8,
    pub byte: usize,
    pub rule: usize,
}

/// A book: n parts, the marks of all rules one after another, and where each rule's marks end.
pub struct Book {
    pub n: usize,
    pub marks: Vec<i16>,
    pub ends: Vec<u32>,
}

/// The lines of a text that count, and where each begins.
struct Lines<'a> {
    text: &'a [u8],
    at: usize,
}

impl<'a> Iterator for Lines<'a> {
    type Item = (usize, &'a [u8]);

    fn next(&mut self) -> Option<Self::Item> {
        while self.at < self.text.len() {
            let from = self.at;
            let rest = &self.text[from..];
            let line = rest.iter().position(|b| *b == b'\n').map_or(rest, |end| &rest[..end]);
            self.at = from + line.len() + 1;
            if line.first() != Some(&b'c') && line.iter().any(|b| !is_blank(*b)) {
                return Some((from, line));
            }
        }
        None
    }
}

/// The fields of a line, and where each begins in it.
struct Fields<'a> {
    line: &'a [u8],
    at: usize,
}

impl<'a> Iterator for Fields<'a> {
    type Item = (usize, &'a [u8]);

    fn next(&mut self) -> Option<Self::Item> {
        while self.at < self.line.len() && is_blank(self.line[self.at]) {
            self.at += 1;
        }
        let from = self.at;
        while self.at < self.line.len() && !is_blank(self.line[self.at]) {
            self.at += 1;
        }
        (from < self.at).then(|| (from, &self.line[from..self.at]))
    }
}

fn is_blank(byte: u8) -> bool {
    byte == b' ' || byte == b'\t'
}

fn fields(line: &[u8]) -> Fields<'_> {
    Fields { line, at: 0 }
}

/// A number: 0, or a digit 1 to 9 and up to four more digits.
pub fn number(field: &[u8]) -> Option<usize> {
    match field {
        [b'0'] => Some(0),
        [b'1'..=b'9', rest @ ..] if rest.len() <= 4 && rest.iter().all(u8::is_ascii_digit) => {
            Some(field.iter().fold(0, |sum, digit| sum * 10 + usize::from(digit - b'0')))
        }
        _ => None,
    }
}

/// A mark or a 0: a number that a minus may precede, if it is not 0.
fn signed(field: &[u8]) -> Option<i32> {
    match field {
        [b'-', rest @ ..] => number(rest).filter(|part| *part > 0).map(|part| -(part as i32)),
        _ => number(field).map(|part| part as i32),
    }
}

impl Book {
    pub fn read(text: &[u8]) -> Result<Book, Fault> {
        if text.len() > 60_000 {
            return Err(Fault { refusal: 1, byte: 60_000, rule: 0 });
        }
        let mut lines = Lines { text, at: 0 };
        let (n, m) = head(text.len(), lines.next())?;
        let mut book = Book { n, marks: Vec::new(), ends: Vec::with_capacity(m) };
        for rule in 1..=m {
            let Some((from, line)) = lines.next() else {
                return Err(Fault { refusal: 8, byte: text.len(), rule });
            };
            book.read_rule(from, line, rule)?;
        }
        match lines.next() {
            None => Ok(book),
            Some((from, line)) => {
                let at = fields(line).next().map_or(0, |(at, _)| at);
                Err(Fault { refusal: 8, byte: from + at, rule: m + 1 })
            }
        }
    }

    fn read_rule(&mut self, from: usize, line: &[u8], rule: usize) -> Result<(), Fault> {
        let mut named = [false; 121];
        let mut left = fields(line);
        while let Some((at, field)) = left.next() {
            let fault = |refusal| Fault { refusal, byte: from + at, rule };
            let mark = signed(field).ok_or(fault(4))?;
            let part = mark.unsigned_abs() as usize;
            if part > self.n {
                return Err(fault(5));
            }
            if part == 0 {
                self.ends.push(self.marks.len() as u32);
                return match left.next() {
                    None => Ok(()),
                    Some((at, _)) => Err(Fault { refusal: 4, byte: from + at, rule }),
                };
            }
            if named[part] {
                return Err(fault(6));
            }
            if self.marks.len() == 16_000 {
                return Err(fault(7));
            }
            named[part] = true;
            self.marks.push(mark as i16);
        }
        Err(Fault { refusal: 4, byte: from + line.len(), rule })
    }
}

/// The size that the first line that counts tells.
fn head(len: usize, line: Option<(usize, &[u8])>) -> Result<(usize, usize), Fault> {
    let Some((from, line)) = line else {
        return Err(Fault { refusal: 2, byte: len, rule: 0 });
    };
    let no_head = Fault { refusal: 2, byte: from, rule: 0 };
    let mut left = fields(line);
    let (Some((_, b"p")), Some((_, b"cnf")), Some((n_at, n)), Some((m_at, m)), None) =
        (left.next(), left.next(), left.next(), left.next(), left.next())
    else {
        return Err(no_head);
    };
    let (Some(n), Some(m)) = (number(n), number(m)) else {
        return Err(no_head);
    };
    if n == 0 || n > 120 {
        return Err(Fault { refusal: 3, byte: from + n_at, rule: 0 });
    }
    if m > 4000 {
        return Err(Fault { refusal: 3, byte: from + m_at, rule: 0 });
    }
    Ok((n, m))
}
