//! Lines and their fields, and what one field may be refused for.

use std::ops::Range;

use crate::refusal::Refusal;

/// Gives the lines of a text that are not blank, each with its number.
#[derive(Clone)]
pub struct LineReader<'a> {
    text: &'a [u8],
    position: usize,
    line: usize,
    part: Range<usize>,
}

impl<'a> LineReader<'a> {
    pub fn new(text: &'a [u8]) -> Self {
        LineReader { text, position: 0, line: 0, part: 0..0 }
    }

    /// Where in the text the line given last stands, from its first field to its last.
    pub fn part(&self) -> Range<usize> {
        self.part.clone()
    }

    /// Whether another line follows that is not blank.
    pub fn more(&self) -> bool {
        self.clone().next_filled().is_some()
    }

    /// The next line that is due, or refusal 6 where the text ends.
    pub fn due(&mut self) -> Result<Fields<'a>, Refusal> {
        self.next_filled().ok_or(Refusal::new(6))
    }

    /// Refuses a line after the last one due.
    pub fn finish(&mut self) -> Result<(), Refusal> {
        match self.next_filled() {
            Some(fields) => Err(Refusal::at(3, fields.line)),
            None => Ok(()),
        }
    }

    fn next_filled(&mut self) -> Option<Fields<'a>> {
        while self.position < self.text.len() {
            let start = self.position;
            let rest = &self.text[start..];
            let length = rest.iter().position(|&byte| byte == b'\n').unwrap_or(rest.len());
            self.position += length + 1;
            self.line += 1;
            let line = &rest[..length];
            let line = line.strip_suffix(b"\r").unwrap_or(line);
            if let Some(first) = line.iter().position(|&byte| !blank(byte)) {
                let blanks_behind = line.iter().rev().take_while(|&&byte| blank(byte)).count();
                self.part = start + first..start + line.len() - blanks_behind;
                return Some(Fields::new(line, self.line));
            }
        }
        None
    }
}

/// The fields of one line, taken from the left. Each step refuses with the line's number.
pub struct Fields<'a> {
    rest: &'a [u8],
    line: usize,
}

impl<'a> Fields<'a> {
    pub fn new(line_bytes: &'a [u8], line: usize) -> Self {
        Fields { rest: skip_blanks(line_bytes), line }
    }

    pub fn at_end(&self) -> bool {
        self.rest.is_empty()
    }

    /// The field that comes next, which stays where it is.
    pub fn peek(&self) -> Option<&'a [u8]> {
        let length = self.rest.iter().position(|&byte| blank(byte)).unwrap_or(self.rest.len());
        (length > 0).then(|| &self.rest[..length])
    }

    pub fn field(&mut self) -> Result<&'a [u8], Refusal> {
        let field = self.peek().ok_or(self.refuse(3))?;
        self.rest = skip_blanks(&self.rest[field.len()..]);
        Ok(field)
    }

    pub fn keyword(&mut self, keyword: &str) -> Result<(), Refusal> {
        let field = self.field()?;
        self.demand(field == keyword.as_bytes(), 3)
    }

    pub fn flag(&mut self) -> Result<bool, Refusal> {
        match self.field()? {
            b"0" => Ok(false),
            b"1" => Ok(true),
            _ => Err(self.refuse(3)),
        }
    }

    pub fn number(&mut self, least: u32, most: u32) -> Result<u32, Refusal> {
        let field = self.field()?;
        let number = within(field, least, most);
        number.ok_or(self.refuse(4))
    }

    /// A number that may be -1 for "not given".
    pub fn number_or_not_given(&mut self, most: u32) -> Result<i32, Refusal> {
        match self.field()? {
            b"-1" => Ok(crate::soc::NOT_GIVEN),
            field => {
                let number = within(field, 0, most).and_then(|number| i32::try_from(number).ok());
                number.ok_or(self.refuse(4))
            }
        }
    }

    /// A module or test number: any decimal but the one due is 5, however long.
    pub fn due_number(&mut self, due: u32) -> Result<(), Refusal> {
        let field = self.field()?;
        self.demand(decimal(field), 4)?;
        self.demand(field == due.to_string().as_bytes(), 5)
    }

    pub fn end(&self) -> Result<(), Refusal> {
        self.demand(self.at_end(), 3)
    }

    pub fn demand(&self, holds: bool, number: u8) -> Result<(), Refusal> {
        if holds {
            Ok(())
        } else {
            Err(self.refuse(number))
        }
    }

    fn refuse(&self, number: u8) -> Refusal {
        Refusal::at(number, self.line)
    }
}

fn blank(byte: u8) -> bool {
    byte == b' ' || byte == b'\t'
}

fn skip_blanks(bytes: &[u8]) -> &[u8] {
    let blanks = bytes.iter().take_while(|&&byte| blank(byte)).count();
    &bytes[blanks..]
}

/// Digits without leading zeros, of any length.
fn decimal(field: &[u8]) -> bool {
    !field.is_empty() && field.iter().all(u8::is_ascii_digit) && (field.len() == 1 || field[0] != b'0')
}

fn within(field: &[u8], least: u32, most: u32) -> Option<u32> {
    if !decimal(field) {
        return None;
    }
    let number = std::str::from_utf8(field).ok()?.parse().ok()?;
    (least..=most).contains(&number).then_some(number)
}
