//! Reading and writing SOC texts: each refusal with its line, the limits, and the written form.

mod common;

use common::{full, soc, t1, D695};
use independent::refusal::Refusal;
use independent::soc_text::read;
use independent::soc_written::written;

fn refused(text: &str) -> (u8, usize) {
    match read(text.as_bytes()) {
        Err(Refusal { number, line }) => (number, line),
        Ok(_) => panic!("read:\n{text}"),
    }
}

/// The full text with one line (from 1) replaced.
fn with_line(line: usize, content: &str) -> String {
    let text = full();
    let mut lines: Vec<&str> = text.lines().collect();
    lines[line - 1] = content;
    lines.join("\n")
}

#[test]
fn written_form_is_read_back() {
    for text in [full(), t1()] {
        assert_eq!(written(&soc(&text)), text);
    }
    let d695 = soc(D695);
    assert_eq!(soc(&written(&d695)), d695);
}

#[test]
fn blanks_and_line_ends_count_for_nothing() {
    let plain = soc(&full());
    assert_eq!(soc(&full().replace('\n', "\r\n")), plain);
    assert_eq!(soc(&full().replace(' ', " \t ").replace('\n', "\t \n \t\n\n")), plain);
    assert_eq!(soc(full().trim_end()), plain);
    assert_eq!(soc(&format!("\n \r\n{}\n\t", full())), plain);
}

#[test]
fn not_given_is_the_same_as_left_out() {
    let left_out = full().replace("Module 0 X -1 Y -1\n", "").replace(" Power -1\n", "\n");
    assert_eq!(soc(&left_out), soc(&full()));
}

#[test]
fn too_long() {
    let text = t1();
    let padded = |length: usize| format!("{text}{}", "\n".repeat(length - text.len()));
    assert_eq!(soc(&padded(61_440)), soc(&text));
    assert_eq!(refused(&padded(61_441)), (1, 0));
    // Length is judged before bytes, and bytes before fields.
    assert_eq!(refused(&"\u{7f}".repeat(61_441)), (1, 0));
    assert_eq!(refused("wrong\nwrong\x7f"), (2, 2));
}

#[test]
fn forbidden_bytes() {
    for bad in ["\0", "\x1f", "\x7f", "é", "\x0b", "\r", "\r\r\n"] {
        assert_eq!(refused(&t1().replacen("\nTotal", &format!("\n{bad}Total"), 1)), (2, 2), "{bad:?}");
    }
    assert_eq!(refused(&format!("{}\r", t1())), (2, 12));
    assert_eq!(refused(&format!("{}\r", t1().trim_end())), (2, 11));
}

#[test]
fn names() {
    for good in ["a", "-", "_", "Z9", &"n".repeat(32)] {
        assert_eq!(soc(&with_line(1, &format!("SocName {good}"))).name(), good.as_bytes());
    }
    for bad in ["SocName", "SocName a.b", "SocName a b", "socname a", "SocNames a", &format!("SocName {}", "n".repeat(33))] {
        assert_eq!(refused(&with_line(1, bad)), (3, 1), "{bad}");
    }
}

/// A line of the full text, what stands there instead, and the refusal number.
const FAULTS: &[(usize, &str, u8)] = &[
    (2, "TotalModules 0", 4),
    (2, "TotalModules 41", 4),
    (2, "TotalModules 02", 4),
    (2, "TotalModules", 3),
    (2, "TotalModules 2 2", 3),
    (2, "TotalModules x", 4),
    (3, "Options Power 2 XY 1", 3),
    (3, "Options Power 01 XY 1", 3),
    (3, "Options Power 1 XY", 3),
    (3, "Options XY 1 Power 1", 3),
    (3, "Options Power 1 XY 1 1", 3),
    (4, "Module 1 Level 0", 5),
    (4, "Module 00 Level 0", 4),
    (4, "Module -0 Level 0", 4),
    (4, "Module 99999999999999999999999999 Level", 5),
    (4, "Module 0 Level 99", 4),
    (4, "Module 0 Level 41", 4),
    (4, "Module 0 Level 40 Inputs x", 5),
    (4, "Module 0 Level 1 Inputs x", 5),
    (4, "Module 0 Level 0 Inputs 8192", 4),
    (4, "Module 0 Level 0 Inputs +1", 4),
    (4, "Module 0 Level 0 Inputs -1", 4),
    (4, "Module 0 Level 0 Inputs 0 Outputs 8192", 4),
    (4, "Module 0 Level 0 Inputs 0 Outputs 0 Bidirs 8192", 4),
    (4, "Module 0 Level 0 Inputs 0 Outputs 0 Bidirs 0 ScanChains 65", 4),
    (4, "Module 0 Level 0 Inputs 0 Outputs 0 Bidirs 0 ScanChains 2: 5 4", 4),
    (4, "Module 0 Level 0 Inputs 0 Outputs 0 Bidirs 0 ScanChains 2 :5 4", 3),
    (4, "Module 0 Level 0 Inputs 0 Outputs 0 Bidirs 0 ScanChains 2", 3),
    (4, "Module 0 Level 0 Inputs 0 Outputs 0 Bidirs 0 ScanChains 2 : 5", 3),
    (4, "Module 0 Level 0 Inputs 0 Outputs 0 Bidirs 0 ScanChains 2 : 5 4 3", 3),
    (4, "Module 0 Level 0 Inputs 0 Outputs 0 Bidirs 0 ScanChains 2 : 0 4", 4),
    (4, "Module 0 Level 0 Inputs 0 Outputs 0 Bidirs 0 ScanChains 2 : 4097 4", 4),
    (5, "Module 0 X -1 Y 3", 5),
    (5, "Module 0 X 3 Y -1 extra", 5),
    (5, "Module 0 X -1 Y -1 extra", 3),
    (5, "Module 0 X 1000001 Y 3", 4),
    (5, "Module 0 X 1000000 Y 1000001", 4),
    (5, "Module 0 X -2 Y 3", 4),
    (5, "Module 0 X -01 Y 3", 4),
    (5, "Module 1 X 3 Y 3", 5),
    (5, "Module 0", 3),
    (6, "Module 0 X 3 Y 3", 3),
    (6, "Module 0 TotalTests 9", 4),
    (6, "Module 1 TotalTests 2", 5),
    (7, "Module 0 Test 2 ScanUse 1", 5),
    (7, "Module 0 Test 01 ScanUse 1", 4),
    (7, "Module 0 Test 1 ScanUse 2", 3),
    (7, "Module 0 Test 1 ScanUse 1 TamUse 00", 3),
    (7, "Module 0 Test 1 ScanUse 1 TamUse 2 Patterns 43", 3),
    (7, "Module 0 Test 1 ScanUse 1 TamUse 1 Patterns 43 Power 128", 17),
    (7, "Module 0 Test 1 ScanUse 0 TamUse 1 Patterns 43", 17),
    (7, "Module 0 Test 1 ScanUse 1 TamUse 1", 17),
    (7, "Module 0 Test 1 ScanUse 1 TamUse 1 Pattern 43", 17),
    (7, "Module 0 Test 1 ScanUse 1 TamUse 1 Patterns 0", 17),
    (7, "Module 0 Test 1 ScanUse 1 TamUse 1 Patterns 43 Watts", 17),
    (7, "Module 0 Test 1 ScanUse 1 TamUse 1x", 3),
    (7, "Module 0 Test 1 ScanUse 1 TamUse", 3),
    (7, "Module 0 Test 2 ScanUse 1 TamUse 1", 5),
    (7, "Module 1 Test 1 ScanUse 1 TamUse 1", 5),
    (7, "Module 0 Test 1 ScanUse 2 TamUse 1", 3),
    (8, "Module 0 Test 2 ScanUse 0 TamUse 1 Patterns 32 Power -1", 17),
    (12, "Module 1 Test 1 ScanUse 1 TamUse 1", 3),
    (7, "Module 0 Test 1 ScanUse 1 TamUse 0 Patterns 0", 4),
    (7, "Module 0 Test 1 ScanUse 1 TamUse 0 Patterns 16777216", 4),
    (7, "Module 0 Test 1 ScanUse 1 TamUse 0 Patterns 4294967297", 4),
    (7, "Module 0 Test 1 ScanUse 1 TamUse 0 Patterns 43 Watts 1", 3),
    (7, "Module 0 Test 1 ScanUse 1 TamUse 0 Patterns 43 Power", 3),
    (7, "Module 0 Test 1 ScanUse 1 TamUse 0 Patterns 43 Power 16777216", 4),
    (7, "Module 0 Test 1 ScanUse 1 TamUse 0 Patterns 43 Power -2", 4),
    (7, "Module 0 Test 1 ScanUse 1 TamUse 0 Patterns 43 Power -1 1", 3),
    (9, "Module 1 Level 0 Inputs 10", 5),
    (9, "Module 1 Level 2 Inputs 10", 5),
];

#[test]
fn faults_of_one_line() {
    for &(line, content, number) in FAULTS {
        assert_eq!(refused(&with_line(line, content)), (number, line), "{content}");
    }
}

#[test]
fn limits_go_on() {
    for (line, content) in [
        (4, "Module 0 Level 0 Inputs 8191 Outputs 8191 Bidirs 8191 ScanChains 2 : 4096 1"),
        (5, "Module 0 X 1000000 Y 0"),
        (7, "Module 0 Test 1 ScanUse 1 TamUse 0 Patterns 16777215 Power 16777215"),
        (8, "Module 0 Test 2 ScanUse 0 TamUse 0 Patterns 1 Power 0"),
    ] {
        soc(&with_line(line, content));
    }
}

#[test]
fn figures_of_an_option_that_is_0() {
    let no_xy = full().replace("XY 1", "XY 0");
    assert_eq!(refused(&no_xy), (3, 5));
    let no_power = full().replace("Power 1 XY", "Power 0 XY");
    assert_eq!(refused(&no_power), (3, 7));
}

/// Module 0 may have tests of its own, and each other module one with TamUse 1.
#[test]
fn module_0_alone_has_no_access_mechanism() {
    let both = full().replace("TamUse 0", "TamUse 1");
    assert_eq!(refused(&both), (17, 7));
    assert_eq!(refused(&both.replace('\n', "\r\n\n")), (17, 13));
    assert_eq!(refused(both.split_inclusive('\n').take(7).collect::<String>().as_str()), (17, 7));
    // A byte that is not allowed comes first, wherever it stands; a fault further up does as well.
    assert_eq!(refused(&format!("{both}\x07")), (2, 13));
    assert_eq!(refused(&both.replace("TotalTests 2", "TotalTests 9")), (4, 6));
    assert_eq!(soc(&full()).modules.iter().map(|module| module.planned()).collect::<Vec<_>>()[..2], [false, true]);
}

#[test]
fn ends_early_or_late() {
    let text = full();
    let lines: Vec<&str> = text.lines().collect();
    for count in 0..lines.len() {
        assert_eq!(refused(&lines[..count].join("\n")), (6, 0), "{count}");
        assert_eq!(refused(&format!("{}\n\n \n", lines[..count].join("\n"))), (6, 0), "{count}");
    }
    assert_eq!(refused(&format!("{text}\n x")), (3, 14));
    assert_eq!(refused(&format!("{text}{text}")), (3, 13));
}

#[test]
fn forty_modules_go_on() {
    let module = |m: usize| {
        let level = m.min(1);
        format!("Module {m} Level {level} Inputs 0 Outputs 0 Bidirs 0 ScanChains 0 :\nModule {m} TotalTests 0\n")
    };
    let modules: String = (0..40).map(module).collect();
    assert_eq!(soc(&format!("SocName n\nTotalModules 40\nOptions Power 0 XY 0\n{modules}")).module_count, 40);
}
