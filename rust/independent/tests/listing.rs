//! The printing program: t1's listing, and each fault of the line `Plan W B` or `Plan W B c`.

mod common;

use common::{t1, T1_LISTING};
use independent::listing::listing;

#[test]
fn t1_is_listed() {
    assert_eq!(listing(format!("Plan 4 2\n{}", t1()).as_bytes()), T1_LISTING);
    assert_eq!(listing(format!(" \tPlan\t4  2 \r\n{}", t1()).as_bytes()), T1_LISTING);
}

/// Module 1 has 5 patterns and module 2 has 4, and each takes so much more with each further capture cycle.
#[test]
fn t1_is_listed_with_capture_cycles() {
    let list = |first: &str| listing(format!("{first}\n{}", t1()).as_bytes());
    assert_eq!(list("Plan 4 2 1"), T1_LISTING);
    for (capture, one, two) in [(2, 70, 13), (3, 75, 17), (4, 80, 21)] {
        let lines = format!(
            "soc t1 wires 4 limit 2 time {one}\nbus 1 width 1 busy {one}\nbus 2 width 3 busy {two}\n\
             module 1 bus 1 wires 1 cycles {one} start 0\nmodule 2 bus 2 wires 3 cycles {two} start 0\n"
        );
        assert_eq!(list(&format!("Plan 4 2 {capture}")), lines);
    }
}

#[test]
fn faults_of_the_first_line() {
    let expected: &[(&[u8], &str)] = &[
        (b"", "3 line 0"),
        (b"\n", "3 line 0"),
        (b" \t\r\n", "3 line 0"),
        (b"Plan", "3 line 0"),
        (b"plan 4 2\n", "3 line 0"),
        (b"Plan 4\n", "3 line 0"),
        (b"Plan x\n", "4 line 0"),
        (b"Plan 4 2 1\n", "6 line 0"),
        (b"Plan 4 2 x\n", "4 line 0"),
        (b"Plan 4 2 01\n", "4 line 0"),
        (b"Plan 4 2 -1\n", "4 line 0"),
        (b"Plan 4 2 4294967296\n", "4 line 0"),
        (b"Plan 4 2 4294967295\n", "6 line 0"),
        (b"Plan 4 2 0\n", "6 line 0"),
        (b"Plan 4 2 1 1\n", "3 line 0"),
        (b"Plan 4 2 1 x\n", "3 line 0"),
        (b"Plan 4 2 x 1\n", "4 line 0"),
        (b"Plan 4 2 9 1\n", "3 line 0"),
        (b"Plan 4 2 1\r", "4 line 0"),
        (b"Plan 4 2 1 \x07\n", "3 line 0"),
        (b"Plan 04 2\n", "4 line 0"),
        (b"Plan -1 2\n", "4 line 0"),
        (b"Plan 4 4294967296\n", "4 line 0"),
        (b"Plan 4 2\x07\n", "4 line 0"),
        (b"Plan 4 2 \x07\n", "4 line 0"),
        (b"Pl\x80n 4 2\n", "3 line 0"),
        (b"Plan 4 2\r", "4 line 0"),
        (b"Plan 4 2\r\r\n", "4 line 0"),
        (b"Plan 4 2 \r\r\n", "4 line 0"),
        (b"Plan 4 2", "6 line 0"),
        (b"Plan 4 2\r\n", "6 line 0"),
        (b"Plan 4294967295 4294967295\n", "6 line 0"),
        (b"Plan 4 x                       \n", "4 line 0"),
        (b"Plan 4 x                        \n", "3 line 0"),
        (b"Plan 4 2                       \n", "6 line 0"),
        (b"Plan 4 2                        \n", "3 line 0"),
        (b"Plan 4 2                      \r\n", "6 line 0"),
        (b"Plan 4 2                       \r\n", "3 line 0"),
        (b"Plan 4 2                        ", "6 line 0"),
        (b"Plan 4 2                         ", "3 line 0"),
        (b"Plan 4 2                     4\n", "6 line 0"),
        (b"Plan 4 2                      4\n", "6 line 0"),
        (b"Plan 4 2                       4\n", "3 line 0"),
        (b"Plan 4294967295 4294967295 4294\n", "6 line 0"),
        (b"Plan 4294967295 4294967295 42949\n", "3 line 0"),
    ];
    for (input, refusal) in expected {
        assert_eq!(listing(input), format!("refused {refusal}\n"), "{}", input.escape_ascii());
    }
}

#[test]
fn lines_of_the_text_count_from_1_after_it() {
    let refused = |first: &str, text: &str| listing(format!("{first}\n{text}").as_bytes());
    assert_eq!(refused("Plan 4 2", "\nSocNames t1"), "refused 3 line 2\n");
    assert_eq!(refused("Plan 0 0", "\x07"), "refused 2 line 1\n");
    assert_eq!(refused("Plan 0 0", &t1()), "refused 7 line 0\n");
    assert_eq!(refused("Plan 65 2", &t1()), "refused 7 line 0\n");
    assert_eq!(refused("Plan 64 0", &t1()), "refused 8 line 0\n");
    assert_eq!(refused("Plan 64 4", &t1()), "refused 8 line 0\n");
    assert_eq!(refused("Plan 4 2", &t1().replace("TamUse 1", "TamUse 0")), "refused 9 line 0\n");
    assert_eq!(refused("Plan 4 2", &"\n".repeat(61_441)), "refused 1 line 0\n");
    assert_eq!(refused("Plan 0 0 0", "\x07"), "refused 2 line 1\n");
    assert_eq!(refused("Plan 0 0 0", &t1()), "refused 7 line 0\n");
    let module_0 = t1().replace("Module 0 TotalTests 0", "Module 0 TotalTests 1\nModule 0 Test 1 ScanUse 0 TamUse 1");
    assert_eq!(refused("Plan 0 0 0", &module_0), "refused 17 line 6\n");
    assert_eq!(refused("Plan 0 0 x", &module_0), "refused 4 line 0\n");
    assert_eq!(refused("Plan 4 4 5", &t1()), "refused 8 line 0\n");
    assert_eq!(refused("Plan 4 2 0", &t1()), "refused 16 line 0\n");
    assert_eq!(refused("Plan 4 2 5", &t1()), "refused 16 line 0\n");
    assert_eq!(refused("Plan 4 2 4294967295", &t1().replace("TamUse 1", "TamUse 0")), "refused 16 line 0\n");
}
