//! What the command writes for programs.

mod calls;

use calls::{call, made, stored, Ended};

#[test]
fn words_and_texts_are_arrays() {
    let load = r#"{"word": "f9400420", "text": "ldr x0, [x1, #8]", "answer": 0, "touches_memory": true}"#;
    let add = r#"{"word": "91000000", "text": null, "answer": 2, "touches_memory": false}"#;
    assert_eq!(call(&["word", "--json", "f9400420"], b""), Ended::well(&format!("[{load}]\n")));
    assert_eq!(call(&["word", "--json"], b"f9400420 91000000\n"), Ended::well(&format!("[{load},\n{add}]\n")));
    assert_eq!(call(&["text", "ldr x0, [x1, #8]", "--json"], b""), Ended::well(&format!("[{load}]\n")));
    assert_eq!(call(&["word", "--json"], b""), Ended::well("[]\n"));
    let ended = call(&["word", "--json", "xyz", "f9400420"], b"");
    assert_eq!((ended.wrote, ended.status), (format!("[{load}]\n"), Some(1)));
}

const CASE: &str = "\
origin 0x1000
readonly 1
tainted letters sesame
bytes 01 ff
x0 0x1000
x1 0x1006
tainted x3.0,7 0x7300000000000073
tainted q2.15 0x73000000000000000000000000000001
monitor 0x1000 4
pc 0x8000
ldrb w2, [x0]
strb w2, [x1]
ldrb w4, [x5, x2]
";

#[test]
fn a_run_is_an_object() {
    let expected = concat!(
        r#"{"files": ["#,
        "\n",
        r#"{"file": "standard input", "steps": ["#,
        r#"{"step": 1, "word": "39400002", "text": "ldrb w2, [x0]", "code": 1, "address": "0x1000", "failed": false, "#,
        r#""taints": [{"register": "x2", "byte": 0}]}, "#,
        r#"{"step": 2, "word": "39000022", "text": "strb w2, [x1]", "code": 65, "address": "0x1006", "failed": false, "#,
        r#""taints": [{"address": "0x1006"}]}], "#,
        r#""answer": 5, "refused": {"meaning": "the address would come from a secret value", "word": "386268a4", "#,
        r#""text": "ldrb w4, [x5, x2]", "address": null, "tainted": [{"register": "x2", "byte": 0}]}, "#,
        r#""registers": [{"name": "x0", "value": "0x1000", "tainted": []}, "#,
        r#"{"name": "x1", "value": "0x1006", "tainted": []}, "#,
        r#"{"name": "x2", "value": "0x00000000000000**", "tainted": [0]}, "#,
        r#"{"name": "x3", "value": "0x**000000000000**", "tainted": [0, 7]}, "#,
        r#"{"name": "q2", "value": "0x**000000000000000000000000000001", "tainted": [15]}], "#,
        r#""pc": "0x8008", "monitor": {"address": "0x1000", "bytes": 4}, "#,
        r#""memory": {"origin": "0x1000", "readonly": 1, "bytes": "**************ff", "#,
        r#""tainted": [{"address": "0x1000", "bytes": 7}]}}"#,
        "\n]}\n"
    );
    let ended = call(&["run", "--json"], CASE.as_bytes());
    assert_eq!(ended, Ended { wrote: expected.into(), said: String::new(), status: Some(1) });

    let shown = call(&["run", "--json", "--secrets"], CASE.as_bytes()).wrote;
    for value in [
        r#"{"name": "x2", "value": "0x0000000000000073", "tainted": [0]}"#,
        r#"{"name": "q2", "value": "0x73000000000000000000000000000001", "tainted": [15]}"#,
        r#""bytes": "736573616d6573ff""#,
    ] {
        assert!(shown.contains(value), "{shown}");
    }
    let none = concat!(
        "{\"files\": [\n",
        r#"{"file": "standard input", "steps": [], "answer": 0, "refused": null, "registers": [], "pc": "0x0", "#,
        r#""monitor": null, "memory": {"origin": "0x0", "readonly": 0, "bytes": "", "tainted": []}}"#,
        "\n]}\n"
    );
    assert_eq!(call(&["run", "--json"], b""), Ended::well(none));
}

/// Each file is an item of one document, and each turn one of its own array.
#[test]
fn a_run_of_two_plugins_and_of_two_files() {
    let (login, plugins) = (stored("examples/login.case"), stored("examples/plugins.case"));
    let ended = call(&["run", "--json", &login, &plugins], b"");
    let [first, login_line, plugins_line, last] = ended.wrote.lines().collect::<Vec<_>>()[..] else {
        panic!("{ended:?}")
    };
    assert_eq!((first, last, ended.said.as_str(), ended.status), (r#"{"files": ["#, "]}", "", Some(1)));
    assert!(login_line.contains(r#"login.case", "steps": [{"step": 1, "word": "39400002""#), "{login_line}");
    for part in [
        r#""turns": [{"plugin": "hall", "steps": [{"step": 1, "word": "f9400002""#,
        r#""answer": 8, "refused": {"meaning": "the store touches read-only memory""#,
        r#""plugins": [{"name": "hall", "registers": [{"name": "x0", "value": "0x1000""#,
    ] {
        assert!(plugins_line.contains(part), "{part}: {plugins_line}");
    }
    // One that can't be read is told of in its place.
    let missing = call(&["run", "--json", "/no/such/file", &login], b"");
    let lines: Vec<&str> = missing.wrote.lines().collect();
    assert!(lines[1].starts_with(r#"{"file": "/no/such/file", "error": "/no/such/file: "#), "{missing:?}");
    assert!(lines[2] == login_line.trim_end_matches(','), "{missing:?}");
    assert!(missing.said.starts_with("milestarling: /no/such/file: ") && missing.status == Some(1), "{missing:?}");
}

#[test]
fn a_reason_is_an_object() {
    let case = made("reason.case", CASE.as_bytes());
    let case = case.to_str().unwrap();
    let trail = concat!(
        r#""trails": [[{"place": {"register": "x2", "byte": 0}, "copied": "#,
        r#"{"step": 1, "word": "39400002", "text": "ldrb w2, [x0]", "from": {"address": "0x1000"}}}, "#,
        r#"{"place": {"address": "0x1000"}, "copied": null}]]}"#,
        "\n"
    );
    let refused = concat!(
        r#""refused": {"step": 3, "word": "386268a4", "text": "ldrb w4, [x5, x2]", "at": "0x8008"}, "#,
        r#""asked": [{"register": "x2", "byte": 0}], "#
    );
    let file = format!(r#"{{"file": "{case}", "#);
    assert_eq!(call(&["why", case, "--json"], b""), Ended::well(&format!("{file}{refused}{trail}")));
    let asked = r#""refused": null, "asked": [{"register": "x2", "byte": 0}], "#;
    assert_eq!(call(&["why", case, "x2.0", "--json"], b""), Ended::well(&format!("{file}{asked}{trail}")));
    let none = r#""refused": null, "asked": [{"address": "0x1007"}], "trails": []}"#;
    assert_eq!(call(&["why", case, "0x1007", "--json"], b""), Ended::well(&format!("{file}{none}\n")));
}

/// Two runs that differ in what is tainted alone are shown the same.
#[test]
fn what_is_secret_isnt_shown() {
    let other = CASE.replace("sesame", "xyzzy!").replace("0x7300000000000073", "0x12000000000000ff");
    let other = other.replace("0x73000000000000000000000000000001", "0x00000000000000000000000000000001");
    assert_ne!(other, CASE);
    for words in [&["run", "--json"][..], &["why", "--json"], &["run"], &["why"]] {
        let shown = call(words, CASE.as_bytes());
        assert!(shown == call(words, other.as_bytes()) && !shown.wrote.is_empty(), "{words:?}: {shown:?}");
    }
}
