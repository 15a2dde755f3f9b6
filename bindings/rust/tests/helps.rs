//! How the command is called: its help, its options and its statuses.

mod calls;

use calls::{call, command, made, Ended};
use std::fs;
use std::process::Stdio;

const COMMANDS: [&str; 14] = [
    "list",
    "rescue",
    "word",
    "text",
    "run",
    "import",
    "why",
    "trace",
    "check",
    "report",
    "answer",
    "completion",
    "man",
    "help",
];

const VERSION: &str = concat!("milestarling ", env!("CARGO_PKG_VERSION"), "\n");

#[test]
fn help_tells_of_each_command() {
    let help = call(&["--help"], b"");
    assert!(help.status == Some(0) && help.said.is_empty(), "{help:?}");
    for words in [&["-h"][..], &["help"]] {
        assert_eq!(call(words, b""), help);
    }
    for name in COMMANDS {
        assert!(help.wrote.contains(&format!("\n  milestarling {name}")), "{name}");
        let told = call(&["help", name], b"");
        assert!(told.status == Some(0) && told.said.is_empty(), "{told:?}");
        let own = told.wrote.split("\n      -h, --help ").next().unwrap();
        assert!(own.starts_with(&format!("  milestarling {name}")) && help.wrote.contains(own), "{told:?}");
        for words in [&[name, "--help"][..], &[name, "-h"], &[name, "-", "-h", "--bogus"]] {
            assert_eq!(call(words, b""), help);
        }
        for flag in ["-V", "--version"] {
            assert_eq!(call(&[name, flag], b""), Ended::well(VERSION));
        }
    }
    let widest = help.wrote.lines().map(|line| line.chars().count()).max().unwrap();
    assert!(widest <= 90, "{widest}");
    for flag in ["-V", "--version"] {
        assert_eq!(call(&[flag], b""), Ended::well(VERSION));
    }
}

#[test]
fn a_wrong_call_is_named() {
    call(&[], b"").fails(
        2,
        "list, rescue, word, text, run, import, why or trace, and also check, report, answer, completion, man or help;",
    );
    call(&["lists"], b"").fails(2, "`lists` is no command; did you mean `list`?");
    call(&["wyh"], b"").fails(2, "did you mean `why`?");
    call(&["disassemble"], b"").fails(2, "`disassemble` is no command: list, ");
    call(&["help", "lists"], b"").fails(2, "did you mean `list`?");
    for name in ["run", "why", "trace"] {
        call(&[name, "--sizes"], b"").fails(2, &format!("`--sizes` is no option of `{name}`"));
    }
    call(&["run", "--secret"], b"").fails(2, "did you mean `--secrets`?");
    call(&["run", "--secrets=yes"], b"").fails(2, "--secrets takes no value");
    call(&["list", "--as"], b"").fails(2, "`--as` is no option of `list`; did you mean `--at`?\n");
    for words in [&["list", "--as", "b"][..], &["list", "b", "--as"]] {
        call(words, b"")
            .fails(2, "`--as` is no option of `list`; did you mean `--at`? (as a file: one file at a time)\n");
    }
    for words in [&["check", "--as", "b"][..], &["why", "b", "--as"]] {
        assert!(!call(words, b"").said.contains("one file at a time"), "{words:?}");
    }
    call(&["import", "--at=0", "--at", "1"], b"").fails(2, "--at is given twice");
    for name in ["rescue", "import"] {
        call(&[name, "a", "b", "--at=0", "--size=1"][..if name == "import" { 5 } else { 3 }], b"")
            .fails(2, "one file at a time, and not a b");
    }
    for name in ["list", "run"] {
        call(&[name, "a", "b"], b"").fails(2, "one file at a time, and not a b: --each takes several\n");
    }
    call(&["man", "list"], b"").fails(2, "takes no words");
    for words in [&["completion"][..], &["completion", "csh"]] {
        call(words, b"").fails(2, "bash, zsh or fish");
    }
}

#[test]
fn an_options_value_stands_behind_a_sign_or_a_space() {
    let word = [0x20, 0x04, 0x40, 0xf9];
    let listed = Ended::well("1000\tf9400420\tldr x0, [x1, #8]\t0\n");
    for words in [&["list", "--at", "0x1000"][..], &["list", "--at=4096"], &["list", "--at=4096", "-"]] {
        assert_eq!(call(words, &word), listed);
    }
    // Behind `--` a name is no option.
    call(&["list", "--", "--at"], b"").fails(1, "--at: ");
}

#[test]
fn several_files_are_named() {
    let word = made("one.bin", &[0x20, 0x04, 0x40, 0xf9]);
    let (word, line) = (word.to_str().unwrap(), "f9400420\tldr x0, [x1, #8]\t0\n");
    let twice = format!("==> {word} <==\n{line}\n==> {word} <==\n{line}");
    assert_eq!(call(&["list", "--each", word, word], b""), Ended::well(&twice));
    assert_eq!(call(&["list", "--each", word], b""), Ended::well(line));
    // One that fails is said, and the others are done.
    let ended = call(&["list", "--each", word, "/no/such/file", word], b"");
    let around = format!("==> {word} <==\n{line}\n==> /no/such/file <==\n\n==> {word} <==\n{line}");
    assert_eq!((ended.wrote.as_str(), ended.status), (around.as_str(), Some(1)));
    assert!(ended.said.starts_with("milestarling: /no/such/file: ") && ended.said.lines().count() == 1, "{ended:?}");

    let case = made("prefetch.case", b"prfm pldl1keep, [x1]\n");
    let case = case.to_str().unwrap();
    let ran = "step 1: prefetch, by f9800020, `prfm pldl1keep, [x1]`\ndone, after 1 steps\npc 0x4\n";
    let twice = format!("==> {case} <==\n{ran}\n==> {case} <==\n{ran}");
    assert_eq!(call(&["run", case, "--each", case], b""), Ended::well(&twice));
}

/// Whoever reads no further is no fault: nothing is said, and the status is 0.
#[test]
fn a_closed_pipe_is_no_error() {
    let image = made("long.bin", &[0x20; 1 << 20]);
    let report = made("closed.report", b"");
    let lists = fs::read(calls::stored("crates/list/stdout")).unwrap();
    let listing = made("closed.listing", &lists);
    let rescued = ["rescue", listing.to_str().unwrap(), "--report", report.to_str().unwrap()];
    for words in [&["list", image.to_str().unwrap()][..], &["--help"], &["word", "f9400420"], &rescued] {
        let mut child =
            command(words).stdin(Stdio::null()).stdout(Stdio::piped()).stderr(Stdio::piped()).spawn().unwrap();
        drop(child.stdout.take());
        let output = child.wait_with_output().unwrap();
        assert_eq!((output.status.code(), output.stderr.len()), (Some(0), 0), "{words:?}: {output:?}");
    }
    let reported = fs::read(&report).unwrap().iter().filter(|&&byte| byte == b'\n').count();
    assert!(reported >= 104_232, "{reported}");
}

/// What was right stands before what is said, where both go to one place.
#[test]
fn earlier_lines_stand_before_an_error() {
    let command = env!("CARGO_BIN_EXE_milestarling");
    for (script, first) in
        [("word f9400420 xyz", "f9400420"), ("answer 0 19", "Answer 0"), ("trace 1 4096 3 0", "step 1")]
    {
        let output =
            std::process::Command::new("sh").args(["-c", &format!("'{command}' {script} 2>&1")]).output().unwrap();
        let wrote = String::from_utf8(output.stdout).unwrap();
        assert!(wrote.starts_with(first) && wrote.lines().last().unwrap().starts_with("milestarling: "), "{wrote}");
        assert_eq!(output.status.code(), Some(1));
    }
}
