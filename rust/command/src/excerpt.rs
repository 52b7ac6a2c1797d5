//! The line of a text that a refusal speaks of, as compilers show it.

/// Stands where a line was cut.
const CUT: &str = "..";
/// Fewer columns than this show nothing of use.
const LEAST: usize = 20;

/// A line of a text, counted from 1, without its end. None where the text has no such line.
pub fn line_of(text: &[u8], line: u64) -> Option<&[u8]> {
    let index = usize::try_from(line.checked_sub(1)?).ok()?;
    let mut lines = text.split(|&byte| byte == b'\n').skip(index);
    let (bytes, next) = (lines.next()?, lines.next());
    // Before an LF, a CR belongs to the line's end.
    Some(next.and(bytes.strip_suffix(b"\r")).unwrap_or(bytes))
}

/// ` 6 | Module 1 ..`: control bytes made visible, cut to so many columns, with a mark beneath the byte that is meant.
pub fn excerpt(bytes: &[u8], line: u64, mark: Option<usize>, columns: usize) -> String {
    let margin = format!(" {line} | ");
    let shown = cut(bytes, mark, columns.max(LEAST + margin.len()) - margin.len());
    let below = match shown.mark {
        Some(column) => format!("\n{} | {}^", " ".repeat(margin.len() - 3), " ".repeat(column)),
        None => String::new(),
    };
    format!("{margin}{}{below}", shown.line)
}

/// What is shown of a line, and the column of the byte that is meant.
struct Shown {
    line: String,
    mark: Option<usize>,
}

fn cut(bytes: &[u8], mark: Option<usize>, room: usize) -> Shown {
    let pieces: Vec<String> = bytes.iter().map(|&byte| visible(byte)).collect();
    let width = |pieces: &[String]| pieces.iter().map(String::len).sum::<usize>();
    if width(&pieces) <= room {
        return Shown { line: pieces.concat(), mark: mark.map(|at| width(&pieces[..at])) };
    }
    // A mark that lies too far right moves the part that is shown, so that it is seen with some of what stands behind it.
    let far = mark.filter(|&at| width(&pieces[..=at]) > room - CUT.len());
    let (before, inner) = if far.is_some() { (CUT, room - 2 * CUT.len()) } else { ("", room - CUT.len()) };
    let start = far.map_or(0, |at| {
        let most = inner - width(&pieces[at + 1..]).min(inner / 4);
        (0..=at).find(|&start| width(&pieces[start..=at]) <= most).unwrap_or(at)
    });
    let end = (start..pieces.len()).find(|&end| width(&pieces[start..=end]) > inner).unwrap_or(pieces.len());
    let behind = if end < pieces.len() { CUT } else { "" };
    let mark = mark.map(|at| before.len() + width(&pieces[start..at]));
    Shown { line: format!("{before}{}{behind}", pieces[start..end].concat()), mark }
}

/// A byte as it can be seen.
fn visible(byte: u8) -> String {
    match byte {
        b'\t' => "\\t".to_string(),
        b'\r' => "\\r".to_string(),
        32..=126 => char::from(byte).to_string(),
        _ => format!("\\x{byte:02x}"),
    }
}

#[cfg(test)]
mod tests {
    use super::{excerpt, line_of};

    #[test]
    fn lines_are_counted_from_1() {
        let text = b"one\ntwo\r\n\nfour\r\r\nfive\r";
        let lines: [&[u8]; 5] = [b"one", b"two", b"", b"four\r", b"five\r"];
        for (line, due) in (1..).zip(lines) {
            assert_eq!(line_of(text, line), Some(due));
        }
        assert_eq!((line_of(text, 0), line_of(text, 6)), (None, None));
    }

    #[test]
    fn control_bytes_are_visible_and_the_byte_that_is_meant_is_marked() {
        assert_eq!(excerpt(b"a\tb", 7, None, 80), " 7 | a\\tb");
        assert_eq!(excerpt(b"a\tb\x07c\x80", 1, Some(3), 80), " 1 | a\\tb\\x07c\\x80\n   |     ^");
        assert_eq!(excerpt(b"a\r", 12, Some(1), 80), " 12 | a\\r\n    |  ^");
    }

    #[test]
    fn a_long_line_is_cut() {
        let long = b"0123456789".repeat(4);
        assert_eq!(excerpt(&long, 1, None, 30), " 1 | 01234567890123456789012..");
        assert_eq!(excerpt(&long, 1, None, 45), " 1 | 0123456789012345678901234567890123456789");
        assert_eq!(excerpt(&long, 1, None, 1), " 1 | 012345678901234567..");
    }

    #[test]
    fn the_byte_that_is_meant_stays_in_sight() {
        let far = [&b"0123456789".repeat(4)[..], b"\x01", &b"x".repeat(40)].concat();
        assert_eq!(excerpt(&far, 1, Some(40), 30), " 1 | ..890123456789\\x01xxxxx..\n   |               ^");
        assert_eq!(excerpt(&far[..41], 1, Some(40), 30), " 1 | ..34567890123456789\\x01\n   |                    ^");
        assert_eq!(excerpt(&far, 1, Some(5), 30), " 1 | 01234567890123456789012..\n   |      ^");
    }
}
