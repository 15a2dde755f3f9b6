//! Rescued listings: the stored cases of the program `salvage`, and the command.

use milestarling::{listing, raw, rescue, Fate};
use std::fs;
use std::path::{Path, PathBuf};
use std::process::{Command, Output, Stdio};

fn stored(name: &str) -> Vec<u8> {
    fs::read(Path::new(env!("CARGO_MANIFEST_DIR")).join("../../crates").join(name)).unwrap()
}

/// The text at the start of a buffer, and the bytes behind it in digits, as the program writes them.
fn left(buffer: &[u8], length: u64) -> Vec<u8> {
    let (text, rest) = buffer.split_at(length as usize);
    let digits: String = rest.iter().map(|byte| format!("{byte:02x}")).collect();
    [text, b"rest\t", digits.as_bytes(), b"\n"].concat()
}

/// Every case of `salvage`, which are made of a model: tools/rescue_cases.py has their form. The last is cut short.
#[test]
fn the_stored_cases() {
    let (input, expected) = (stored("salvage/stdin"), stored("salvage/stdout"));
    let (mut rest, mut wrote, mut number) = (&input[..], Vec::new(), 0);
    while rest.len() >= 24 {
        let (head, behind) = rest.split_at(24);
        let sizes: Vec<usize> =
            head.chunks(8).map(|size| u64::from_le_bytes(size.try_into().unwrap()) as usize).collect();
        if behind.len() < sizes[0] {
            break;
        }
        let (damaged, next) = behind.split_at(sizes[0]);
        let (mut output, mut report) = (vec![255; sizes[1]], vec![255; sizes[2]]);
        let reply = raw::rescue(damaged, &mut output, &mut report);
        wrote.extend(format!("case\t{number}\n").bytes());
        wrote.extend(format!("rescue\t{}\t{}\t{}\n", reply.answer, reply.length, reply.report_length).bytes());
        wrote.extend(left(&output, reply.length));
        wrote.extend(left(&report, reply.report_length));
        let rescued = rescue(damaged);
        if reply.answer == 0 {
            assert_eq!(rescued.listing().as_bytes(), &output[..reply.length as usize]);
            assert_eq!(rescued.report().as_bytes(), &report[..reply.report_length as usize]);
        }
        let again = rescue(rescued.listing().as_bytes());
        assert_eq!(again.listing(), rescued.listing());
        assert!(again.fates().all(|(_, fate)| fate == Fate::Kept));
        (rest, number) = (next, number + 1);
    }
    wrote.extend(format!("case\t{number}\tcut short\n").bytes());
    assert!(number > 700 && wrote == expected, "{number} cases");
}

/// A listing of the library comes back unchanged, but for its `short` line.
#[test]
fn a_listing_comes_back() {
    let image = stored("list/stdin");
    let whole = listing(&image[..image.len() / 4 * 4]);
    let rescued = rescue(whole.as_bytes());
    assert_eq!(rescued.count(Fate::Kept), image.len() / 4);
    assert!(rescued.into_listing() == whole);
    let short = listing(&image[..7]);
    assert_eq!(rescue(short.as_bytes()).fates().last(), Some((2, Fate::Dropped)));
    assert_eq!(rescue(b"").fates().next(), None);
}

fn call(words: &[&str], damaged: &[u8]) -> Output {
    let input = made("damaged", damaged);
    Command::new(env!("CARGO_BIN_EXE_milestarling"))
        .arg("rescue")
        .args(words)
        .stdin(Stdio::from(fs::File::open(input).unwrap()))
        .output()
        .expect("the command is there")
}

fn made(name: &str, content: &[u8]) -> PathBuf {
    let path = Path::new(env!("CARGO_TARGET_TMPDIR")).join(name);
    fs::write(&path, content).unwrap();
    path
}

#[test]
fn the_command() {
    let report = made("report", b"");
    let report = report.to_str().unwrap();
    let kept = "f9400420\tldr x0, [x1, #8]\t0\n";
    let ended = call(&[], kept.as_bytes());
    assert_eq!((ended.status.code(), &ended.stdout[..]), (Some(0), kept.as_bytes()));
    assert_eq!(String::from_utf8_lossy(&ended.stderr), "milestarling: 1 kept, 0 restored, 0 dropped\n");
    let damaged = format!("{kept}{}\n\r\n{kept}", &kept[1..kept.len() - 1]);
    let ended = call(&["--report", report], damaged.as_bytes());
    assert_eq!((ended.status.code(), &ended.stdout[..]), (Some(1), kept.repeat(3).as_bytes()));
    assert_eq!(String::from_utf8_lossy(&ended.stderr), "milestarling: 2 kept, 1 restored, 1 dropped\n");
    assert_eq!(fs::read(report).unwrap(), b"1\tkept\n2\trestored\n3\tdropped\n4\tkept\n");
    for wrong in [&["--report"][..], &["--reports"], &["a", "b"]] {
        assert_eq!(call(wrong, b"").status.code(), Some(2), "{wrong:?}");
    }
    assert_eq!(call(&["--report", "/"], b"").status.code(), Some(1));
}
