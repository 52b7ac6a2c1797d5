//! Overlays: reading one, the pair with its base, the lines of a module, and each refusal with the text that is meant.

mod common;

use common::{full, soc, t1, D695};
use independent::forms::{soc_bytes, LAYOUT_BYTES, PLAN_BYTES, SOC_BYTES};
use independent::overlay;
use independent::pair::{self, shown, PairRefusal, Text};
use independent::pair_entries::*;
use independent::planner::plan;
use independent::refusal::Refusal;
use independent::soc::Soc;
use independent::soc_written::written;
use independent::time::{layout_and_time, module_time};

const LATE: &str = include_str!("../../../examples/d695-late.overlay");

/// What it takes to lay an overlay over the full text.
const FULL_HEAD: &str = "Overlay x847\nOptions Power 1 XY 1\n";

/// An overlay on the full text, with every kind of line.
fn full_overlay() -> String {
    format!(
        "{FULL_HEAD}Module 0 Level 0 Inputs 1 Outputs 2 Bidirs 3 ScanChains 1 : 9
Module 0 X 5 Y 6
Module 0 TotalTests 1
Module 0 Test 1 ScanUse 0 TamUse 0 Patterns 7 Power 8
Module 1 Level 1 Inputs 4 Outputs 5 Bidirs 6 ScanChains 2 : 3 2
Module 1 X -1 Y -1
Module 1 TotalTests 2
Module 1 Test 1 ScanUse 1 TamUse 1 Patterns 9 Power -1
Module 1 Test 2 ScanUse 1 TamUse 1 Patterns 8 Power 1
"
    )
}

/// A module of two lines at a level.
fn small_block(number: usize, level: usize, inputs: usize) -> String {
    format!("Module {number} Level {level} Inputs {inputs} Outputs 0 Bidirs 0 ScanChains 0 :\nModule {number} TotalTests 0\n")
}

/// A base of 40 modules named n.
fn forty() -> String {
    let modules: String = (0..40).map(|number| small_block(number, number.min(1), 0)).collect();
    format!("SocName n\nTotalModules 40\nOptions Power 0 XY 0\n{modules}")
}

fn on_forty(blocks: &str) -> String {
    format!("Overlay n\nOptions Power 0 XY 0\n{blocks}")
}

fn combined(base: &str, overlay: &str) -> Soc {
    let pair = pair::read(base.as_bytes(), overlay.as_bytes()).unwrap_or_else(|refusal| panic!("{refusal:?}\n{overlay}"));
    assert_eq!(pair.soc.check(), Ok(()));
    pair.soc
}

/// Number, line and text of a pair's refusal.
fn refused(base: &str, overlay: &str) -> (u8, usize, Text) {
    match pair::read(base.as_bytes(), overlay.as_bytes()) {
        Err(PairRefusal { refusal: Refusal { number, line }, text }) => (number, line, text),
        Ok(_) => panic!("accepted:\n{overlay}"),
    }
}

/// Number and line of an overlay's refusal, by its own reader and as that of a pair.
fn overlay_refused(overlay: &str) -> (u8, usize) {
    let Refusal { number, line } = overlay::read(overlay.as_bytes()).expect_err(overlay);
    assert_eq!(refused(&full(), overlay), (number, line, Text::Overlay));
    (number, line)
}

fn shown_of(base: &str, overlay: &str, module: u32) -> String {
    String::from_utf8(shown(base.as_bytes(), overlay.as_bytes(), module).to_vec()).unwrap()
}

/// The lines of a module in a text without blanks at their ends.
fn lines_of_module(text: &str, number: usize) -> &str {
    let begin = format!("Module {number} ");
    let (first, last) = (text.find(&begin).unwrap(), text.rfind(&begin).unwrap());
    let end = text[last..].find('\n').map_or(text.len(), |length| last + length);
    &text[first..end]
}

/// The full overlay with one line (from 1) replaced.
fn with_line(line: usize, content: &str) -> String {
    let text = full_overlay();
    let mut lines: Vec<&str> = text.lines().collect();
    lines[line - 1] = content;
    lines.join("\n")
}

#[test]
fn two_cores_of_d695_change() {
    let mut expected = soc(D695);
    expected.modules[3].chain_count = 2;
    expected.modules[3].lengths[..2].fill(independent::units::FlipFlops(16));
    expected.modules[5].tests[0].patterns = 96;
    assert_eq!(combined(D695, LATE), expected);
    for module in 0..11 {
        let (text, name) = if [3, 5].contains(&module) { (LATE, Text::Overlay) } else { (D695, Text::Base) };
        let lines = lines_of_module(text, module);
        assert_eq!(shown_of(D695, LATE, module as u32), lines);
        let part = module_lines(D695.as_bytes(), LATE.as_bytes(), module as u32).unwrap();
        assert_eq!((part.text, &text[part.place]), (name, lines));
    }
}

#[test]
fn entries_work_on_the_combined_record() {
    let (base, overlay) = (D695.as_bytes(), LATE.as_bytes());
    let soc = combined(D695, LATE);
    let mut lent = vec![7; SOC_BYTES + 1];
    assert_eq!(read_pair(base, overlay, &mut lent), Ok(SOC_BYTES as u64));
    assert_eq!((&lent[..SOC_BYTES], lent[SOC_BYTES]), (&soc_bytes(&soc)[..], 7));
    let text = written(&soc);
    let mut lent = vec![7; text.len() + 1];
    assert_eq!(write_pair(base, overlay, &mut lent), Ok(text.len() as u64));
    assert_eq!((&lent[..text.len()], lent[text.len()]), (text.as_bytes(), 7));
    let mut lent = vec![7; LAYOUT_BYTES];
    assert_eq!(layout_pair(base, overlay, 3, 1, 4, 2, &mut lent), Ok(LAYOUT_BYTES as u64));
    assert_eq!(lent, independent::forms::layout_bytes(&layout_and_time(&soc, 3, 1, 4, 2).unwrap()));
    for (module, capture) in (1..11).zip([1, 2, 3, 4].into_iter().cycle()) {
        let time = module_time(&soc, module, 9, capture).unwrap();
        assert_eq!(module_time_pair(base, overlay, module, 9, capture), Ok(time.cycles.0));
        assert_eq!(module_wires_pair(base, overlay, module, 9, capture), Ok(time.wires.0.into()));
    }
    let mut lent = vec![7; PLAN_BYTES];
    assert_eq!(plan_pair(base, overlay, 16, 2, 3, &mut lent), Ok(PLAN_BYTES as u64));
    assert_eq!(lent, independent::forms::plan_bytes(&plan(&soc, 16, 2, 3).unwrap()));
    // On 9 wires module 5 took 21,518 cycles, (1 + 193) × 110 + 178.
    for capture in 1..=4 {
        assert_eq!(module_time_pair(base, overlay, 5, 9, capture), Ok((u64::from(capture) + 193) * 96 + 178));
    }
}

#[test]
fn the_overlay_is_read_with_its_own_positions_and_powers() {
    let soc = combined(&full(), &full_overlay());
    let as_base = full_overlay().replace("Overlay x847\n", "SocName x847\nTotalModules 2\n");
    assert_eq!(soc, common::soc(&as_base));
    let left_out = full_overlay().replace("Module 1 X -1 Y -1\n", "").replace(" Power -1\n", "\n");
    assert_eq!(combined(&full(), &left_out), soc);
}

#[test]
fn blanks_and_line_ends_are_shown_as_they_stand() {
    let inner =
        "Module\t1 Level  1 Inputs 1 Outputs 0 Bidirs 0 ScanChains 0 \t:\t \r\n\r\n \t\n\tModule 1 TotalTests\t1 \r\n\n Module 1 Test 1 \
                 ScanUse 1 TamUse 1 Patterns 3";
    for (before, behind) in [("", ""), ("", "\n"), ("", "\r\n"), ("\n\t \r\n \t", " \t"), (" ", "\t\r\n\r\n \n\t")] {
        let overlay = format!("\tOverlay t1 \r\nOptions  Power 0 XY\t0\n{before}{inner}{behind}");
        assert_eq!(shown_of(&t1(), &overlay, 1), inner);
        assert_eq!(combined(&t1(), &overlay).modules[1].tests[0].patterns, 3);
        let base = format!("SocName t1\nTotalModules 2\nOptions Power 0 XY 0\n{}{before}{inner}{behind}", small_block(0, 0, 0));
        let other = format!("Overlay t1\nOptions Power 0 XY 0\n{}", small_block(0, 0, 1));
        assert_eq!(shown_of(&base, &other, 1), inner);
        assert_eq!(shown_of(&base, &other, 0), small_block(0, 0, 1).trim_end());
    }
}

#[test]
fn the_last_field_of_a_block_without_tests_is_their_number() {
    let overlay = on_forty("Module 2 Level 1 Inputs 1 Outputs 0 Bidirs 0 ScanChains 0 :\nModule 2 TotalTests 0 \t");
    assert_eq!(shown_of(&forty(), &overlay, 2), overlay[overlay.find("Module").unwrap()..].trim_end());
}

#[test]
fn the_last_block_and_all_blocks() {
    let last = on_forty(&small_block(39, 1, 5));
    let soc = combined(&forty(), &last);
    assert_eq!((soc.modules[38].inputs, soc.modules[39].inputs), (0, 5));
    assert_eq!(shown_of(&forty(), &last, 39), small_block(39, 1, 5).trim_end());
    assert_eq!(shown_of(&forty(), &last, 38), small_block(38, 1, 0).trim_end());
    let blocks: String = (0..40).map(|number| small_block(number, number.min(1), number)).collect();
    let all = on_forty(&blocks);
    let soc = combined(&forty(), &all);
    for number in 0..40 {
        assert_eq!(soc.modules[number].inputs as usize, number);
        assert_eq!(shown_of(&forty(), &all, number as u32), small_block(number, number.min(1), number).trim_end());
    }
    // Behind module 39 no number is left.
    assert_eq!(refused(&forty(), &format!("{all}{}", small_block(39, 1, 0))), (5, 83, Text::Overlay));
    assert_eq!(refused(&forty(), &format!("{all}{}", small_block(40, 1, 0))), (4, 83, Text::Overlay));
}

#[test]
fn a_module_that_is_left_as_it_was() {
    let base = full();
    for module in 0..2 {
        let lines = lines_of_module(&base, module);
        let overlay = format!("{FULL_HEAD}{lines}");
        assert_eq!(combined(&base, &overlay), soc(&base));
        assert_eq!(module_lines(base.as_bytes(), overlay.as_bytes(), module as u32).unwrap().text, Text::Overlay);
    }
}

#[test]
fn too_long() {
    let padded = |length: usize| format!("{}{}", full_overlay(), "\n".repeat(length - full_overlay().len()));
    assert_eq!(combined(&full(), &padded(61_440)), combined(&full(), &full_overlay()));
    assert_eq!(overlay_refused(&padded(61_441)), (1, 0));
    assert_eq!(overlay_refused(&"\u{7f}".repeat(61_441)), (1, 0));
}

#[test]
fn forbidden_bytes() {
    for bad in ["\0", "\x1f", "\x7f", "é", "\x0b", "\r", "\r\r\n"] {
        assert_eq!(overlay_refused(&full_overlay().replacen("\nOptions", &format!("\n{bad}Options"), 1)), (2, 2), "{bad:?}");
    }
    assert_eq!(overlay_refused(&format!("{}\r", full_overlay())), (2, 12));
    assert_eq!(overlay_refused("wrong\nwrong\x7f"), (2, 2));
}

/// A line of the full overlay, what stands there instead, and the refusal number.
const FAULTS: &[(usize, &str, u8)] = &[
    (1, "Overlay", 3),
    (1, "overlay x847", 3),
    (1, "SocName x847", 3),
    (1, "Overlay x847 x", 3),
    (1, "Overlay x.y", 3),
    (1, "Overlay nnnnnnnnnnnnnnnnnnnnnnnnnnnnnnnnn", 3),
    (2, "TotalModules 2", 3),
    (2, "Options Power 2 XY 1", 3),
    (2, "Options Power 1 XY", 3),
    (2, "Options Power 1 XY 1 1", 3),
    (3, "Module", 3),
    (3, "Modules 0", 3),
    (3, "Module x Level 0", 4),
    (3, "Module 00 Level 0", 4),
    (3, "Module -1 Level 0", 4),
    (3, "Module 40 Level 0", 4),
    (3, "Module 99999999999999999999999999 Level 0", 4),
    (3, "Module 4294967296 Level 0", 4),
    (3, "Module 0 TotalTests 0", 3),
    (3, "Module 0 Level 41", 4),
    (3, "Module 0 Level 40 Inputs x", 4),
    (3, "Module 0 Level 0 Inputs 8192", 4),
    (3, "Module 0 Level 0 Inputs 0 Outputs 0 Bidirs 0 ScanChains 1 : 4097", 4),
    (3, "Module 0 Level 0 Inputs 0 Outputs 0 Bidirs 0 ScanChains 1 : 9 9", 3),
    (4, "Module 1 X 5 Y 6", 5),
    (4, "Module 40 X 5 Y 6", 5),
    (4, "Module 99999999999999999999999999 X 5 Y 6", 5),
    (4, "Module 00 X 5 Y 6", 4),
    (4, "Module 0 X -1 Y 6", 5),
    (4, "Module 0 X 1000001 Y 6", 4),
    (5, "Module 0 X 5 Y 6", 3),
    (5, "Module 40 TotalTests 1", 5),
    (5, "Module 0 TotalTests 9", 4),
    (6, "Module 0 Test 2 ScanUse 0", 5),
    (6, "Module 41 Test 1 ScanUse 0", 5),
    (6, "Module 0 Test 1 ScanUse 2", 3),
    (6, "Module 0 Test 1 ScanUse 0 TamUse 2", 3),
    (6, "Module 0 Test 1 ScanUse 0 TamUse 1", 17),
    (6, "Module 0 Test 1 ScanUse 0 TamUse 1 Patterns 0", 17),
    (6, "Module 0 Test 1 ScanUse 0 TamUse 1 Patterns 7 Power 8", 17),
    (6, "Module 0 Test 1 ScanUse 0 TamUse 0 Patterns 0", 4),
    (6, "Module 0 Test 1 ScanUse 0 TamUse 0 Patterns 7 Watts", 3),
    (7, "Module 0 Level 0", 5),
    (7, "Module 0 Test 2 ScanUse 0 TamUse 0 Patterns 7 Power 8", 5),
    (7, "Module 40 Level 1", 4),
    (7, "x", 3),
];

#[test]
fn faults_of_one_line() {
    for &(line, content, number) in FAULTS {
        assert_eq!(overlay_refused(&with_line(line, content)), (number, line), "{content}");
    }
}

#[test]
fn numbers_ascend_strictly() {
    let order = |numbers: &[usize]| on_forty(&numbers.iter().map(|&number| small_block(number, number.min(1), 0)).collect::<String>());
    for good in [&[0][..], &[39], &[0, 39], &[1, 2, 3], &[5, 17, 39]] {
        combined(&forty(), &order(good));
    }
    for (bad, line) in [(&[1, 1][..], 5), (&[1, 0], 5), (&[2, 10, 9], 7), (&[10, 9], 5), (&[5, 39, 0], 7)] {
        assert_eq!(refused(&forty(), &order(bad)), (5, line, Text::Overlay), "{bad:?}");
    }
}

#[test]
fn no_level_rule_is_tested_in_an_overlay() {
    let overlay = overlay::read(on_forty(&(small_block(0, 40, 0) + &small_block(1, 0, 0) + &small_block(2, 39, 0))).as_bytes()).unwrap();
    assert_eq!(overlay.blocks.iter().map(|block| (block.number, block.module.level)).collect::<Vec<_>>(), [(0, 40), (1, 0), (2, 39)]);
}

#[test]
fn an_overlay_is_read_by_its_own_options() {
    let faulty = |options: &str| full_overlay().replace("Options Power 1 XY 1", options);
    assert_eq!(overlay_refused(&faulty("Options Power 1 XY 0")), (3, 4));
    assert_eq!(overlay_refused(&faulty("Options Power 0 XY 1")), (3, 6));
    // Positions and powers under the overlay's own options are read, and 15 comes afterwards.
    let base = full().replace("Options Power 1 XY 1", "Options Power 0 XY 0").replace("Module 0 X -1 Y -1\n", "");
    let base = base.replace("Module 1 X 678 Y 123\n", "").replace(" Power 128", "").replace(" Power -1", "").replace(" Power 576", "");
    soc(&base);
    assert_eq!(refused(&base, &full_overlay()), (15, 0, Text::Overlay));
}

#[test]
fn ends_early() {
    let text = full_overlay();
    let lines: Vec<&str> = text.lines().collect();
    for count in 0..lines.len() {
        // Behind the first block, at line 6, nothing more is due.
        if count != 6 {
            assert_eq!(overlay_refused(&lines[..count].join("\n")), (6, 0), "{count}");
            assert_eq!(overlay_refused(&format!("{}\n\n \n", lines[..count].join("\n"))), (6, 0), "{count}");
        }
    }
    assert_eq!(overlay::read(lines[..6].join("\n").as_bytes()).unwrap().blocks.len(), 1);
}

#[test]
fn lines_behind_the_last_block() {
    assert_eq!(overlay_refused(&format!("{}\n x", full_overlay())), (3, 13));
    assert_eq!(overlay_refused(&format!("{}{}", full_overlay(), full_overlay())), (3, 12));
}

#[test]
fn an_overlay_that_is_not_on_this_base() {
    let base = full();
    for other in ["x84", "x8477", "X847", "x848"] {
        assert_eq!(refused(&base, &full_overlay().replace("x847", other)), (15, 0, Text::Overlay), "{other}");
    }
    let plain = "Overlay x847\nOptions Power 1 XY 1\nModule 1 Level 1 Inputs 0 Outputs 0 Bidirs 0 ScanChains 0 :\nModule 1 TotalTests 0\n";
    combined(&base, plain);
    for (from, to) in [
        ("Power 1", "Power 0"),
        ("XY 1", "XY 0"),
        ("Power 1 XY 1", "Power 0 XY 0"),
        ("Module 1", "Module 2"),
        ("Module 1", "Module 39"),
        ("Module 1", "Module 0"),
        ("Level 1", "Level 0"),
        ("Level 1", "Level 2"),
        ("Level 1", "Level 40"),
    ] {
        assert_eq!(refused(&base, &plain.replace(from, to)), (15, 0, Text::Overlay), "{to}");
    }
    // A level that would keep the rule of levels is still another level.
    let levels = |level: usize| format!("{}{}", small_block(1, 1, 0), small_block(2, level, 0));
    let base = format!("SocName n\nTotalModules 3\nOptions Power 0 XY 0\n{}{}", small_block(0, 0, 0), levels(2));
    combined(&base, &on_forty(&levels(2)));
    assert_eq!(refused(&base, &on_forty(&levels(1))), (15, 0, Text::Overlay));
}

#[test]
fn base_before_overlay_before_15() {
    let base_fault = full().replace("TotalModules 2", "TotalModules x");
    let overlay_fault = full_overlay().replace("Patterns 9", "Patterns x");
    let other_name = full_overlay().replace("x847", "y");
    for overlay in [&full_overlay(), &overlay_fault, &other_name, "", "\x07", &"\n".repeat(61_441)] {
        assert_eq!(refused(&base_fault, overlay), (4, 2, Text::Base));
    }
    assert_eq!(refused(&"\n".repeat(61_441), &"\n".repeat(61_441)), (1, 0, Text::Base));
    assert_eq!(refused("", "\x07"), (6, 0, Text::Base));
    assert_eq!(refused(&full(), &overlay_fault), (4, 10, Text::Overlay));
    assert_eq!(refused(&full(), &overlay_fault.replace("x847", "y")), (4, 10, Text::Overlay));
    assert_eq!(refused(&full(), &overlay_fault.replace("Module 0 Level 0", "Module 0 Level 3")), (4, 10, Text::Overlay));
    assert_eq!(refused(&full(), &other_name), (15, 0, Text::Overlay));
    assert_eq!(refused(&full(), &full()), (3, 1, Text::Overlay));
    assert_eq!(refused(&full_overlay(), &full_overlay()), (3, 1, Text::Base));
}

#[test]
fn module_0_with_tam_use_1_comes_before_15() {
    let planned = full_overlay().replacen("TamUse 0", "TamUse 1", 1);
    assert_eq!(refused(&full(), &planned), (17, 6, Text::Overlay));
    assert_eq!(refused(&full(), &planned.replace("x847", "y")), (17, 6, Text::Overlay));
    assert_eq!(refused(&full(), &planned.replace("Module 0 Level 0", "Module 0 Level 3")), (17, 6, Text::Overlay));
    assert_eq!(refused(&full(), &planned.replace("Patterns 9", "Patterns x")), (17, 6, Text::Overlay));
    let base = full().replacen("TamUse 0", "TamUse 1", 1);
    assert_eq!(refused(&base, &planned), (17, 7, Text::Base));
    // An overlay without that test does not mend the base.
    assert_eq!(refused(&base, &full_overlay()), (17, 7, Text::Base));
}

#[test]
fn a_refused_pair_or_a_module_not_there_shows_the_empty_part() {
    let of = |number: u8, line: usize, text: Text| Err(PairRefusal { refusal: Refusal { number, line }, text });
    let lines = |base: &str, overlay: &str, module: u32| {
        let answer = module_lines(base.as_bytes(), overlay.as_bytes(), module);
        assert!(answer.is_ok() || shown_of(base, overlay, module).is_empty());
        answer
    };
    for module in [2, 39, 40, 256, u32::MAX] {
        assert_eq!(lines(&full(), &full_overlay(), module), of(13, 0, Text::Neither));
        assert_eq!(lines(&full(), &full_overlay().replace("x847", "y"), module), of(15, 0, Text::Overlay));
        assert_eq!(lines(&full(), &with_line(8, "Module 1 X 2 Y"), module), of(3, 8, Text::Overlay));
    }
    for module in [0, 1] {
        lines(&full(), &full_overlay(), module).unwrap();
        assert_eq!(lines(&full(), &full_overlay().replace("x847", "y"), module), of(15, 0, Text::Overlay));
        assert_eq!(lines(&full(), "", module), of(6, 0, Text::Overlay));
        assert_eq!(lines("", &full_overlay(), module), of(6, 0, Text::Base));
    }
}

#[test]
fn what_an_entry_refuses_of_a_good_pair_is_of_neither_text() {
    let (base, late) = (full(), full_overlay());
    let (base, late) = (base.as_bytes(), late.as_bytes());
    let of = |number: u8| Err(PairRefusal { refusal: Refusal::new(number), text: Text::Neither });
    let mut lent = vec![7; SOC_BYTES];
    assert_eq!(read_pair(base, late, &mut lent[1..]), of(11));
    assert_eq!(write_pair(base, late, &mut lent[..9]), of(11));
    assert_eq!(layout_pair(base, late, 2, 1, 65, 5, &mut lent), of(7));
    assert_eq!(layout_pair(base, late, 2, 1, 64, 5, &mut lent), of(16));
    assert_eq!(layout_pair(base, late, 2, 1, 64, 4, &mut lent), of(13));
    // The overlay has a second test of module 1, and none of module 0.
    assert_eq!(layout_pair(base, late, 0, 2, 64, 1, &mut lent), of(13));
    assert_eq!(layout_pair(base, late, 1, 2, 64, 1, &mut lent[..LAYOUT_BYTES - 1]), of(11));
    assert!(layout_pair(base, late, 1, 2, 64, 4, &mut vec![0; LAYOUT_BYTES]).is_ok());
    assert_eq!(layout_pair(base, late, 1, 3, 64, 4, &mut lent), of(13));
    assert_eq!(layout_pair(base, late, 1, 3, 64, 0, &mut lent), of(16));
    assert_eq!(layout_pair(base, late, 1, 3, 0, 0, &mut lent), of(7));
    for (width, capture, number) in [(0, 0, 7), (65, 5, 7), (1, 0, 16), (64, 5, 16), (1, 1, 13), (64, 4, 13)] {
        assert_eq!(module_time_pair(base, late, 2, width, capture), of(number));
        assert_eq!(module_wires_pair(base, late, 2, width, capture), of(number));
    }
    assert_eq!(plan_pair(base, late, 0, 0, 0, &mut lent), of(7));
    assert_eq!(plan_pair(base, late, 1, 4, 0, &mut lent), of(8));
    assert_eq!(plan_pair(base, late, 1, 1, 1, &mut lent[..PLAN_BYTES - 1]), of(11));
    let unplanned = full_overlay().replace("TamUse 1", "TamUse 0");
    assert_eq!(plan_pair(base, unplanned.as_bytes(), 1, 1, 5, &mut lent), of(16));
    assert_eq!(plan_pair(base, unplanned.as_bytes(), 1, 1, 4, &mut lent), of(9));
    assert!(lent.iter().all(|&byte| byte == 7));
}

#[test]
fn every_entry_refuses_the_pair_first() {
    let good = (full(), full_overlay());
    let cases = [
        (String::new(), full_overlay(), 6, Text::Base),
        (good.0.clone(), with_line(3, "Module 40"), 4, Text::Overlay),
        (good.0, good.1.replace("x847", "y"), 15, Text::Overlay),
    ];
    for (base, late, number, text) in cases {
        let (base, late) = (base.as_bytes(), late.as_bytes());
        let mut lent = [7];
        let answers = [
            read_pair(base, late, &mut lent),
            write_pair(base, late, &mut lent),
            layout_pair(base, late, 99, 99, 99, 99, &mut lent),
            module_time_pair(base, late, 99, 99, 99),
            module_wires_pair(base, late, 99, 99, 99),
            plan_pair(base, late, 99, 99, 99, &mut lent),
            module_lines(base, late, 99).map(|_| 0),
        ];
        for answer in answers {
            let refused = answer.unwrap_err();
            assert_eq!((refused.refusal.number, refused.text), (number, text));
        }
        assert_eq!(lent, [7]);
    }
}

#[test]
fn texts_have_their_numbers() {
    assert_eq!([Text::Neither, Text::Base, Text::Overlay].map(|text| text as u8), [0, 1, 2]);
}
