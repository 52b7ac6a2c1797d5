//! `--json`: one object with the keys that the manual names, as a JSON parser reads it.

mod common;

use common::{Folder, T1};
use serde_json::{json, Value};

fn object(folder: &Folder, words: &[&str], status: i32) -> Value {
    let ran = folder.run(words);
    assert_eq!(ran.status, Some(status), "{}", ran.err);
    assert_eq!((ran.out.lines().count(), ran.out.ends_with('\n')), (1, true), "{}", ran.out);
    serde_json::from_str(&ran.out).unwrap_or_else(|error| panic!("{error}: {}", ran.out))
}

fn plan_of_t1() -> Value {
    json!({
        "capture": 1, "soc": "t1", "wires": 4, "limit": 2, "time": 65,
        "buses": [{"bus": 1, "width": 1, "busy": 65}, {"bus": 2, "width": 3, "busy": 9}],
        "modules": [
            {"module": 1, "bus": 1, "wires": 1, "cycles": 65, "start": 0},
            {"module": 2, "bus": 2, "wires": 3, "cycles": 9, "start": 0},
        ],
    })
}

#[test]
fn plan_and_show() {
    let folder = Folder::holding("t1.soc", T1);
    assert_eq!(object(&folder, &["plan", "--json", "t1.soc", "4", "2"], 0), plan_of_t1());
    assert_eq!(object(&folder, &["plan", "t1.soc", "4", "2", "--json"], 0), plan_of_t1());
    folder.run(&["write", "t1.soc", "4", "2", "t1.plan"]).done("");
    let mut shown = plan_of_t1();
    for key in ["soc", "capture"] {
        shown.as_object_mut().unwrap().remove(key);
    }
    assert_eq!(object(&folder, &["show", "--json", "t1.plan"], 0), shown);
    let second = json!({"module": 2, "bus": 1, "wires": 3, "cycles": 9, "start": 65});
    assert_eq!(object(&folder, &["plan", "--json", "t1.soc", "4", "1"], 0)["modules"][1], second);
}

#[test]
fn budget() {
    let folder = Folder::holding("t1.soc", T1);
    let found = object(&folder, &["budget", "--json", "t1.soc", "4", "2", "1000"], 0);
    let mut expected = plan_of_t1();
    expected["ended"] = json!("finished");
    expected["tries"] = found["tries"].clone();
    assert_eq!(found, expected);
    let none = json!({"capture": 4, "ended": "unfinished", "tries": 1});
    assert_eq!(object(&folder, &["budget", "--json", "t1.soc", "4", "2", "1", "--capture", "4"], 0), none);
    assert_eq!(object(&folder, &["budget", "--json", "t1.soc", "4", "2", "0"], 1), json!({"refused": 18, "line": 0}));
}

#[test]
fn a_name_of_digits_is_no_number() {
    let folder = Folder::holding("x.soc", T1.replace("SocName t1", "SocName 695"));
    assert_eq!(object(&folder, &["plan", "--json", "x.soc", "4", "2"], 0)["soc"], json!("695"));
}

#[test]
fn layout() {
    let text = T1.replace("ScanChains 1 : 10", "ScanChains 2 : 10 4").replace("Inputs 3", "Inputs 4");
    let folder = Folder::holding("x.soc", text);
    let with_chains = json!({
        "module": 1, "test": 1, "width": 2, "capture": 1, "si": 10, "so": 10, "cycles": 65,
        "chains": [{"chain": 1, "ff": 10, "in": 0, "out": 0, "bidir": 0}, {"chain": 2, "ff": 4, "in": 0, "out": 0, "bidir": 0}],
        "internal": [{"internal": 1, "chain": 1}, {"internal": 2, "chain": 2}],
    });
    assert_eq!(object(&folder, &["layout", "--json", "x.soc", "1", "1", "2"], 0), with_chains);
    let with_cells = json!({
        "module": 2, "test": 1, "width": 1, "capture": 1, "si": 4, "so": 2, "cycles": 22,
        "chains": [{"chain": 1, "ff": 0, "in": 4, "out": 2, "bidir": 0}], "internal": [],
    });
    assert_eq!(object(&folder, &["layout", "--json", "x.soc", "2", "1", "1"], 0), with_cells);
    let folder = Folder::holding("x.soc", T1.replace("Inputs 3 Outputs 2 Bidirs 0", "Inputs 2 Outputs 1 Bidirs 1"));
    let with_bidirs = json!({
        "module": 2, "test": 1, "width": 2, "capture": 1, "si": 2, "so": 1, "cycles": 13,
        "chains": [{"chain": 1, "ff": 0, "in": 1, "out": 0, "bidir": 1}, {"chain": 2, "ff": 0, "in": 1, "out": 1, "bidir": 0}],
        "internal": [],
    });
    assert_eq!(object(&folder, &["layout", "--json", "x.soc", "2", "1", "2"], 0), with_bidirs);
}

#[test]
fn time() {
    let folder = Folder::holding("t1.soc", T1);
    let expected = json!({"module": 2, "width": 4, "capture": 1, "cycles": 9, "wires": 3});
    assert_eq!(object(&folder, &["time", "--json", "t1.soc", "2", "4"], 0), expected);
    let longer = json!({"module": 2, "width": 4, "capture": 3, "cycles": 17, "wires": 3});
    assert_eq!(object(&folder, &["time", "--json", "--capture", "3", "t1.soc", "2", "4"], 0), longer);
}

#[test]
fn a_refusal() {
    let folder = Folder::holding("x.soc", T1.replace("Power 0", "Power 2"));
    folder.put("t1.soc", T1);
    for call in [&["plan", "x.soc", "4", "2"][..], &["layout", "x.soc", "1", "1", "4"], &["time", "x.soc", "1", "4"]] {
        assert_eq!(object(&folder, &[call, &["--json"]].concat(), 1), json!({"refused": 3, "line": 3}));
    }
    assert_eq!(object(&folder, &["show", "--json", "x.soc"], 1), json!({"refused": 12, "line": 0}));
    assert_eq!(object(&folder, &["plan", "--json", "t1.soc", "x", "2"], 1), json!({"refused": 4, "line": 0}));
}

/// Every key of an object, those of the objects in its arrays included.
fn keys(value: &Value) -> Vec<String> {
    match value {
        Value::Object(members) => members.iter().flat_map(|(key, value)| [vec![key.clone()], keys(value)].concat()).collect(),
        Value::Array(values) => values.iter().flat_map(keys).collect(),
        _ => Vec::new(),
    }
}

#[test]
fn the_manual_names_every_key() {
    let folder = Folder::holding("t1.soc", T1);
    let page = folder.run(&["manual"]).out;
    let output = page.split_once(".SH OUTPUT").expect("the section").1.split_once("\n.SH").expect("its end").0;
    let words: Vec<&str> = output.split(|byte: char| !byte.is_ascii_alphanumeric()).collect();
    let mut calls = vec![object(&folder, &["plan", "--json", "t1.soc", "0", "2"], 1)];
    calls.push(object(&folder, &["plan", "--json", "t1.soc", "4", "2"], 0));
    calls.push(object(&folder, &["budget", "--json", "t1.soc", "4", "2", "1000"], 0));
    calls.push(object(&folder, &["layout", "--json", "t1.soc", "1", "1", "4"], 0));
    calls.push(object(&folder, &["time", "--json", "t1.soc", "1", "4"], 0));
    for key in calls.iter().flat_map(keys) {
        assert!(words.contains(&key.as_str()), "{key}");
    }
}
