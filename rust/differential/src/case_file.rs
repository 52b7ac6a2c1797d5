//! Cases as text files, for the corpus and for a case that differs. The form is told in `corpus/README`.

use std::fmt::Write;

use crate::case::{Case, Entry, NUMBERS};

/// A run of equal bytes this long is written as `repeat`.
const RUN: usize = 16;
/// A line of `text` or `bytes` takes this many bytes at most.
const PART: usize = 64;

pub fn written(case: &Case, remark: &str) -> String {
    let mut file = String::new();
    for line in remark.lines() {
        let _ = writeln!(file, "# {line}");
    }
    let numbers = case.numbers.map(|number| number.to_string()).join(" ");
    let _ = writeln!(file, "entry {}\nnumbers {numbers}\nroom {}", case.entry.name(), case.room);
    if case.overlay_at > 0 {
        let _ = writeln!(file, "overlay {}", case.overlay_at);
    }
    let mut rest = &case.input[..];
    while !rest.is_empty() {
        let length = write_part(rest, &mut file);
        rest = &rest[length..];
    }
    file
}

/// Writes one line for bytes at the front, and tells how many they are.
fn write_part(bytes: &[u8], file: &mut String) -> usize {
    let run = run_length(bytes);
    if run >= RUN {
        let _ = writeln!(file, "repeat {run} {:02x}", bytes[0]);
        return run;
    }
    let readable = bytes.iter().take(PART).take_while(|&&byte| readable(byte)).count();
    // A line of the text is a line of the file.
    let text = bytes[..readable].iter().position(|&byte| byte == b'\n').map_or(readable, |place| place + 1);
    if text >= 4 || text == bytes.len() {
        let _ = writeln!(file, "text \"{}\"", bytes[..text].escape_ascii());
        return text;
    }
    let mut length = 1;
    while length < bytes.len().min(PART) && run_length(&bytes[length..]) < RUN {
        length += 1;
    }
    let hex: String = bytes[..length].iter().map(|byte| format!("{byte:02x}")).collect();
    let _ = writeln!(file, "bytes {hex}");
    length
}

fn run_length(bytes: &[u8]) -> usize {
    bytes.iter().take_while(|&&byte| byte == bytes[0]).count()
}

fn readable(byte: u8) -> bool {
    matches!(byte, b'\t' | b'\n' | b'\r' | 32..=126)
}

pub fn read(file: &str) -> Result<Case, String> {
    let mut case = Case::new(Entry::Listing, [], Vec::new());
    let mut entry = None;
    for (index, line) in file.lines().enumerate() {
        let (word, rest) = line.split_once(' ').unwrap_or((line, ""));
        let done = match word {
            "" | "#" => Some(()),
            "entry" => Entry::named(rest).map(|named| entry = Some(named)),
            "numbers" => read_numbers(rest).map(|numbers| case.numbers = numbers),
            "room" => rest.parse().ok().map(|room| case.room = room),
            "overlay" => rest.parse().ok().map(|place| case.overlay_at = place),
            "text" => read_text(rest).map(|bytes| case.input.extend(bytes)),
            "bytes" => read_hex(rest).map(|bytes| case.input.extend(bytes)),
            "repeat" => read_repeat(rest).map(|bytes| case.input.extend(bytes)),
            _ => None,
        };
        done.ok_or(format!("line {} is not one of a case: {line}", index + 1))?;
    }
    case.entry = entry.ok_or("no entry is named")?;
    Ok(case)
}

/// Numbers that are left out are 0.
fn read_numbers(numbers: &str) -> Option<[u64; NUMBERS]> {
    let mut numbers: Vec<u64> = numbers.split(' ').map(|number| number.parse().ok()).collect::<Option<_>>()?;
    numbers.resize(numbers.len().max(NUMBERS), 0);
    numbers.try_into().ok()
}

fn read_repeat(repeat: &str) -> Option<Vec<u8>> {
    let (count, byte) = repeat.split_once(' ')?;
    Some(read_hex(byte)?.repeat(count.parse().ok()?))
}

fn read_hex(hex: &str) -> Option<Vec<u8>> {
    let digits: Vec<u8> = hex.chars().map(|digit| digit.to_digit(16).map(|digit| digit as u8)).collect::<Option<_>>()?;
    (digits.len() % 2 == 0).then(|| digits.chunks(2).map(|pair| pair[0] * 16 + pair[1]).collect())
}

fn read_text(quoted: &str) -> Option<Vec<u8>> {
    let mut bytes = Vec::new();
    let mut rest = quoted.strip_prefix('"')?.strip_suffix('"')?.bytes();
    while let Some(byte) = rest.next() {
        bytes.push(match byte {
            b'\\' => match rest.next()? {
                b'n' => b'\n',
                b'r' => b'\r',
                b't' => b'\t',
                b'x' => read_hex(&format!("{}{}", char::from(rest.next()?), char::from(rest.next()?)))?[0],
                literal => literal,
            },
            plain => plain,
        });
    }
    Some(bytes)
}

#[cfg(test)]
mod tests {
    use super::*;

    #[test]
    fn cases_are_read_back() {
        let inputs: [&[u8]; 6] = [
            b"",
            b"Plan 4 2\r\nSocName \"a\\b\"\tx\n\n",
            b"\0\x01\xff\xfe'",
            &[7; 100],
            b"abcd\0\0\0\0\0\0\0\0\0\0\0\0\0\0\0\0\0\0\xabtext",
            b"\x80abc",
        ];
        for entry in crate::case::ENTRIES {
            for input in inputs {
                for overlay_at in [0, 4] {
                    let case = Case { entry, numbers: [1, 0, 0, u64::MAX], overlay_at, room: 300, input: input.to_vec() };
                    let file = written(&case, "why it is kept\nin two lines");
                    assert_eq!(read(&file), Ok(case), "{file}");
                }
            }
        }
    }

    #[test]
    fn numbers_left_out_are_0() {
        assert_eq!(read("entry plan\nnumbers 4 2\n"), Ok(Case::new(Entry::Plan, [4, 2, 0, 0], Vec::new())));
    }

    #[test]
    fn other_lines_are_told() {
        for file in [
            "",
            "entry none\n",
            "entry plan\nnumbers 1 2 3 4 5\n",
            "entry plan\nnumbers x\n",
            "entry plan\nbytes 0\n",
            "entry plan\ntext \"a\nwhat\n",
        ] {
            assert!(read(file).is_err(), "{file}");
        }
    }
}
