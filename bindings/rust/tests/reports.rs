//! `milestarling report`: what a page has, that it has nothing of a secret, and how it is written.

mod calls;

use calls::{call, command, made, stored, Ended};
use std::fs;
use std::path::Path;
use std::process::Command;

/// The page of a case.
fn page(case: &str) -> String {
    let Ended { wrote, said, status } = call(&["report"], case.as_bytes());
    assert_eq!((said.as_str(), status), ("", Some(0)), "{case}");
    assert_sound(&wrote);
    wrote
}

fn page_of(name: &str) -> String {
    page(&fs::read_to_string(stored(name)).unwrap())
}

/// What a reader sees of a page: its text, with the spaces between words as one.
fn text(page: &str) -> String {
    let (_, body) = page.split_once("<body>").unwrap();
    let mut text = String::new();
    for piece in body.split('<').skip(1) {
        let (tag, words) = piece.split_once('>').unwrap();
        // Words of an element within a line go on.
        let inside = ["code", "/code", "span", "/span", "strong", "/strong", "i", "/i"];
        if !inside.contains(&tag.split(' ').next().unwrap()) {
            text.push(' ');
        }
        text.push_str(words);
    }
    for (escape, letter) in [("&lt;", "<"), ("&gt;", ">"), ("&quot;", "\""), ("&#39;", "'"), ("&amp;", "&")] {
        text = text.replace(escape, letter);
    }
    text.split_whitespace().collect::<Vec<_>>().join(" ")
}

/// Asserts that elements are closed in the order that they are opened in, and that nothing is run or loaded.
fn assert_sound(page: &str) {
    assert!(page.starts_with("<!DOCTYPE html>\n<html lang=\"en\">\n") && page.ends_with("</html>\n"));
    let (head, style) = page.split_once("<style>").unwrap();
    let without_style = format!("{head}<style>{}", &style[style.find("</style>").unwrap()..]);
    let mut open: Vec<&str> = Vec::new();
    for piece in without_style.split('<').skip(2) {
        let (tag, words) = piece.split_once('>').unwrap_or_else(|| panic!("{piece}"));
        assert!(!words.contains('>'), "{piece}");
        let name = tag.split([' ', '/']).next().unwrap();
        match tag.strip_prefix('/') {
            Some(closed) => assert_eq!(open.pop(), Some(closed), "{piece}"),
            None if ["meta", "link"].contains(&name) || tag.ends_with('/') => {}
            None => open.push(name),
        }
    }
    assert_eq!(open, [""; 0]);
    let links = "<link rel=\"icon\" href=\"data:,\">";
    let rest = page.replacen(links, "", 1);
    for loads in [
        "<link", "<script", "<img", "<iframe", "<object", "<embed", " href", " src", "url(", "@import", "http:",
        "https:", "//",
    ] {
        assert!(!rest.contains(loads), "{loads}");
    }
    assert!(page.contains("content=\"default-src 'none'; style-src 'unsafe-inline'; img-src data:\""));
}

fn assert_tells(page: &str, sentences: &[&str]) {
    let text = text(page);
    let mut rest = text.as_str();
    for sentence in sentences {
        let at =
            rest.find(sentence).unwrap_or_else(|| panic!("`{sentence}` isn't there, or not in this order: {text}"));
        rest = &rest[at + sentence.len()..];
    }
}

#[test]
fn an_answer_5_is_told_from_what_to_do_to_the_bytes() {
    assert_tells(
        &page_of("examples/plugin/copy_by_kind.case"),
        &[
            "Stopped: a secret would have chosen an address",
            "Answer 5",
            "Step 4, ldrb w0, [x1, x8], at 0x10410, was refused.",
            "from x8 byte 0, which came of 0x1009, tainted at the start.",
            "The 3 steps before it stand.",
            "What to do next",
            "Who can mend it",
            "The member, by not using a password",
            "What to ask the member",
            "A table lookup by its letters is the usual cause.",
            "addr2line -f -e PLUGIN 0x10410",
            "How the secret came there",
            "The way of the secret from 0x1009 to x8 byte 0, and to the refused address of step 4.",
            "0x1009 was tainted at the start.",
            "Step 1, ldr q0, [x0], copied it to q0 byte 9.",
            "Step 2, str q0, [x1], copied it to 0x1019.",
            "Step 3, ldrb w8, [x1, #9], copied it to x8 byte 0.",
            "Step 4, ldrb w0, [x1, x8], would have taken its address from it, and was refused.",
            "Steps",
            "1 ldr q0, [x0] 16 0x1000 loads 16 bytes; taints q0 bytes 0 to 15 3dc00000 at 0x10404",
            "2 str q0, [x1] 80 0x1010 stores 16 bytes; taints 0x1010 to 0x101f 3d800020 at 0x10408",
            "3 ldrb w8, [x1, #9] 1 0x1019 loads 1 byte; taints x8 byte 0 39402428 at 0x1040c",
            "4 ldrb w0, [x1, x8] – – refused, answer 5: the address would come from a secret value 38686820 at 0x10410",
            "Memory at the end",
            "0x1000 to 0x101f: 32 bytes",
            "0x1000L*L*",
            "all tainted; all loaded",
            "all tainted; 0x1019 loaded; all stored",
            "This page has no value of a register or of memory.",
        ],
    );
}

/// Each link of `why` stands on the page.
#[test]
fn the_way_is_that_of_why() {
    for name in ["examples/login.case", "examples/plugin/copy_by_kind.case"] {
        let told = call(&["why", &stored(name)], b"").wrote;
        let text = text(&page_of(name));
        let mut links: Vec<&str> = told.lines().skip(1).collect();
        links.reverse();
        assert!(links.len() > 1);
        for link in links {
            let (place, how) = link.split_once(": ").unwrap();
            let sentence = match how.split_once(", from ") {
                Some((step, _)) => format!("S{}, copied it to {place}.", &step[1..]),
                None => format!("{place} was tainted at the start."),
            };
            assert!(text.contains(&sentence), "{sentence}: {text}");
        }
    }
}

#[test]
fn bytes_that_went_together_are_drawn_once() {
    let case = "origin 0x1000\ntainted letters sesame42\nzeros 8\nx0 0x1000\nldr x1, [x0]\nldr x2, [x1]\n";
    let whole = page(case);
    assert_eq!(whole.matches("<svg").count(), 1);
    assert_tells(&whole, &["0x1000 to 0x1007 was tainted at the start", "copied it to x1 bytes 0 to 7."]);
    let apart = page(&case.replace("ldr x1, [x0]", "ldrb w1, [x0]\nstrb w1, [x0, #9]\nldr x1, [x0, #8]"));
    assert_tells(&apart, &["0x1000 was tainted", "copied it to 0x1009.", "copied it to x1 byte 1."]);
}

/// Cases with a secret as `{}` in memory, registers and vector registers, and two values that it may have.
const SECRETS: &[(&str, [&str; 2])] = &[
    // The letter would choose an address.
    (
        "origin 0x1000\ntainted letters {}\nzeros 24\nx0 0x1000\nx1 0x1010\nldrb w2, [x0]\nstrb w2, [x1]\nldrb w4, [x0, x2]\n",
        ["sesame42", "open1234"],
    ),
    // Copied and never looked up, with signs, and then outside memory.
    (
        "origin 0x1000\ntainted bytes {}\nzeros 24\nx0 0x1000\nldrsb x2, [x0]\nstur x2, [x0, #9]\nldr q1, [x0]\nstr q1, [x0, #16]\n\
         ldr x3, [x0, #32]\n",
        ["00 00", "ff 80"],
    ),
    // A register of which some bytes are secret: its number of digits isn't the same either.
    (
        "origin 0x1000\nreadonly 8\nzeros 32\nx0 0x1000\ntainted x2.1-3,7 {}\nstr x2, [x0, #8]\nldrb w3, [x0, #9]\nstr x3, [x0]\n",
        ["0x07", "0xff00000000ffff07"],
    ),
    // The base, and SP.
    ("origin 0x1000\nzeros 32\ntainted x0 {}\nldr x1, [x0]\n", ["0x1000", "0"]),
    ("origin 0x1000\nzeros 32\ntainted sp {}\nldr x1, [sp]\n", ["0x1000", "18446744073709551615"]),
    // A vector register, all of it and two of its bytes.
    (
        "origin 0x1000\nzeros 64\nx0 0x1000\ntainted q3 {}\nstr q3, [x0, #16]\nldr x1, [x0, #24]\nldr x2, [x0, x1]\n",
        ["1", "0xffffffffffffffffffffffffffffffff"],
    ),
    (
        "origin 0x1000\nzeros 64\nx0 0x1000\ntainted q3.0,15 {}\nstp q3, q4, [x0]\nldrb w1, [x0, #1]\nldrb w2, [x0, #15]\n",
        ["0x0f0000000000000000000000000000ee", "0"],
    ),
    // Two plugins, of which one stops for its secret.
    (
        "origin 0x1000\nletters seats: 42, rows.\nzeros 16\ntainted letters {}\nzeros 8\nshared 0x1000 16\nplugin hall 0x1010 16\n\
         x0 0x1000\nx1 0x1010\nplugin login 0x1020 16\nx0 0x1000\nx1 0x1020\nturn hall\nldr x2, [x0]\nturn login\nldrb w2, [x1]\n\
         turn login\nstrb w2, [x1, #8]\nldrb w3, [x1, x2]\nturn hall\nldrb w5, [x1, #16]\n",
        ["sesame42", "\\/<&'\">"],
    ),
];

#[test]
fn runs_that_differ_only_in_secrets_have_the_same_page() {
    for (case, secrets) in SECRETS {
        let [one, other] = secrets.map(|secret| {
            // Letters stand in the case with as many bytes.
            page(&case.replace("{}", &format!("{secret:>8}")))
        });
        assert!(one == other, "{case}");
        // Comments may have what they like.
        assert!(page(&format!("# {}\n{}", secrets[0], case.replace("{}", &format!("{:>8}", secrets[1])))) == one);
    }
}

/// The same of the stored cases, with every tainted byte changed.
#[test]
fn stored_cases_with_other_secrets_have_the_same_page() {
    for name in ["examples/login.case", "examples/plugins.case", "examples/plugin/copy_by_kind.case"] {
        let case = fs::read_to_string(stored(name)).unwrap();
        let changed = case
            .replace("letters sesame42", "letters open1234")
            .replace("tainted bytes 73", "tainted bytes 00")
            .replace("tainted bytes 03", "tainted bytes ff")
            .replace("tainted zeros 6", "tainted bytes 01 02 03 04 05 06");
        assert_ne!(case, changed);
        let shown = page(&case);
        assert!(shown == page(&changed), "{name}");
        assert!(!shown.contains("sesame") && !text(&shown).contains("s e s a m e"));
        // What is tainted does count.
        assert!(shown != page(&case.replace("tainted letters", "letters")));
    }
}

/// Values that aren't tainted aren't on the page either, unless a step has shown them as an address.
#[test]
fn no_value_is_shown() {
    let case =
        "origin 0x1000\nletters an untainted text\nzeros 15\nx0 0x1000\nx7 0xabcdef\nq5 0x123456789\nstr x7, [x0]\n";
    let shown = page(case);
    assert!(!shown.contains("untainted text") && !shown.contains("abcdef") && !shown.contains("123456789"));
    assert!(
        shown == page(&case.replace("untainted text", "unguarded name").replace("abcdef", "f").replace("q5", "q6"))
    );
}

#[test]
fn each_answer_is_told() {
    let memory = "origin 0x1000\nreadonly 16\nzeros 64\nx0 0x1000\nsp 0x1018\n";
    let told: &[(&str, &[&str])] = &[
        (
            "",
            &[
                "Done: every word was run",
                "Answer 0",
                "The run was done, in 0 steps.",
                "Nobody has to do anything.",
                "No step was done.",
            ],
        ),
        (
            "prfm pldl1keep, [x0]",
            &["The run was done, in 1 step.", "1 prfm pldl1keep, [x0] 0 0x0 prefetch: touches nothing"],
        ),
        ("x3 0x1010\nstxr w1, x2, [x3]", &["1 stxr w1, x2, [x3] 72 0x1010", "that failed: stores nothing"]),
        (
            "pc 2\nldr x1, [x0]",
            &["Not begun", "Answer 1", "The run wasn't begun, and nothing was changed.", "We: it is the host's call."],
        ),
        (
            "word 91000000",
            &["doesn't take", "Answer 2", "Step 1, 91000000, at 0x0, was refused. It doesn't touch memory", "no text"],
        ),
        ("word 4c407000", &["Answer 2", "It touches memory: it is a load or store of a kind that isn't taken."]),
        (
            "word f8408421\nldr x1, [x0]",
            &["leaves open", "Answer 4", "No step was done before it, and the word behind it wasn't run."],
        ),
        ("ldr x1, [sp]", &["aligned", "Answer 6", "The stack pointer was 0x1018, which is no multiple of 16."]),
        ("ldxr x1, [x3]\nx3 0x1004", &["Answer 6", "about to load 8 bytes from 0x1004 on."]),
        (
            "ldp x1, x2, [x0, #56]",
            &[
                "no memory",
                "Answer 7",
                "It was about to load 16 bytes from 0x1038 on. Memory is 0x1000 to 0x103f.",
                "x",
            ],
        ),
        (
            "ldr x3, [x0]\nstr x3, [x0, #8]",
            &[
                "read-only",
                "Answer 8",
                "Read-only is 0x1000 to 0x100f.",
                "The step before it stands.",
                "0x1000 to 0x100f: 16 bytes, read-only",
                "0x1008 to 0x100f refused",
                "0x1010 to 0x103f: 48 bytes",
            ],
        ),
    ];
    for (words, sentences) in told {
        assert_tells(&page(&format!("{memory}{words}\n")), sentences);
    }
}

#[test]
fn two_plugins_have_their_turns_and_ranges() {
    let shown = page_of("examples/plugins.case");
    assert_tells(
        &shown,
        &[
            "Stopped: 3 of 5 turns",
            "Stopped: a store to memory that is read-only",
            "Answer 8",
            "Turn 2, step 3 of login, str x2, [x0], at 0x8, was refused.",
            "Both plugins may load 0x1000 to 0x100f, and neither may store there.",
            "Answer 12",
            "Turn 3, step 2 of hall, ldrb w5, [x1, #16]",
            "Its own range is 0x1010 to 0x101f, and both plugins may load 0x1000 to 0x100f.",
            "Turn 5, step 1 of login",
            "Answer 0",
            "Turn 1 of hall was done, in 3 steps.",
            "Turn 4 of hall was done, in 1 step.",
            "Turn 1, hall 1 ldr x2, [x0] 8 0x1000 loads 8 bytes",
            "Turn 2, login 1 ldrb w2, [x1] 1 0x1020 loads 1 byte; taints x2 byte 0",
            "0x1000 to 0x100f: 16 bytes, read by both plugins, stored to by neither",
            "0x1010 to 0x101f: 16 bytes, of hall alone",
            "0x1020 to 0x102f: 16 bytes, of login alone",
            "0x1020 to 0x1028 tainted; 0x1020 loaded; 0x1028 stored",
        ],
    );
    // The way of a secret over turns, with the turns' own numbers.
    let (case, secrets) = SECRETS.last().unwrap();
    let way = page(&case.replace("{}", secrets[0]));
    assert_tells(
        &way,
        &[
            "Turn 3, step 2 of login, ldrb w3, [x1, x2], at 0x8, was refused.",
            "0x1020 was tainted at the start.",
            "Turn 2, step 1, ldrb w2, [x1], copied it to x2 byte 0.",
            "Turn 3, step 2, ldrb w3, [x1, x2], would have taken its address from it",
        ],
    );
    // Ranges that don't fit are no parts of memory.
    let wrong =
        fs::read_to_string(stored("examples/plugins.case")).unwrap().replace("shared 0x1000 16", "shared 0x1000 17");
    assert_tells(&page(&wrong), &["Not begun", "0x1000 to 0x102f: 48 bytes"]);
}

#[test]
fn names_are_escaped() {
    let name = "<script>alert('&\"')</script>";
    let case = fs::read_to_string(stored("examples/plugins.case")).unwrap().replace("login", name).replace("# ", "#");
    let shown = page(&case);
    assert_tells(&shown, &[&format!("Turn 2, {name}"), &format!("of {name} alone")]);
    assert!(shown.contains("&lt;script&gt;alert(&#39;&amp;&quot;&#39;)&lt;/script&gt;"));
}

/// Long memories, many steps and long ways are folded.
#[test]
fn a_page_stays_small() {
    let steps = "str x2, [x1]\nldr x2, [x1], #8\n".repeat(3000);
    let memory = "origin 0x10000\ntainted letters sesame42\nzeros 1048576\n".to_string()
        + &"tainted zeros 16\nzeros 16\n".repeat(5000);
    let case = format!("{memory}x0 0x10000\nx1 0x20000\nx9 0x10100\nldr x2, [x0]\n{steps}ldr x3, [x9, x2]\n");
    let shown = page(&case);
    assert!(shown.len() < 250_000, "{}", shown.len());
    assert_tells(
        &shown,
        &[
            "After 5990 more copies that are left out here: step",
            "5852 steps left out here: milestarling run has all",
            "6002 ldr x3, [x9, x2] – –",
            "0x10000L*L*L*L*L*L*L*L*",
            "bytes, neither touched nor tainted",
            "some touched or tainted, left out here",
        ],
    );
    // One way for each of sixteen bytes.
    let apart: String =
        (0..8).map(|at| format!("ldrb w2, [x0, #{}]\nstrb w2, [x0, #{}]\n", 3 * at + 1, 64 + at)).collect();
    let case =
        format!("origin 0x1000\ntainted zeros 64\nzeros 64\nx0 0x1000\n{apart}ldr x1, [x0, #64]\nldr x3, [x1]\n");
    let shown = page(&case);
    assert_eq!(shown.matches("<svg").count(), 6);
    assert_tells(&shown, &["2 more ways left out here."]);
}

#[test]
fn a_page_depends_on_the_case_alone() {
    let name = "examples/login.case";
    let expected = page_of(name);
    assert_eq!(call(&["report", &stored(name)], b""), Ended::well(&expected));
    let copy = made("another name.case", &fs::read(stored(name)).unwrap());
    assert_eq!(call(&["report", copy.to_str().unwrap()], b""), Ended::well(&expected));
    let elsewhere =
        command(&["report", copy.to_str().unwrap()]).current_dir("/").env("TZ", "Asia/Tokyo").output().unwrap();
    assert!(elsewhere.stdout == expected.as_bytes());
}

/// A directory that is made for one test, and empty.
fn room(name: &str) -> String {
    let path = Path::new(env!("CARGO_TARGET_TMPDIR")).join(name);
    let _ = fs::remove_dir_all(&path);
    fs::create_dir_all(&path).unwrap();
    path.to_str().unwrap().into()
}

fn names_in(room: &str) -> Vec<String> {
    let mut names: Vec<String> =
        fs::read_dir(room).unwrap().map(|entry| entry.unwrap().file_name().into_string().unwrap()).collect();
    names.sort();
    names
}

#[test]
fn a_file_is_written_whole_or_not_at_all() {
    let (case, room) = (stored("examples/login.case"), room("page_written"));
    let expected = page_of("examples/login.case");
    let out = format!("{room}/page.html");
    assert_eq!(call(&["report", &case, "--out", &out], b""), Ended::well(""));
    assert!(fs::read_to_string(&out).unwrap() == expected);
    // Over an older one, and by a link to it, which stays one.
    fs::write(&out, "older").unwrap();
    std::os::unix::fs::symlink("page.html", format!("{room}/link.html")).unwrap();
    assert_eq!(call(&["report", &case, "--out", &format!("{room}/link.html")], b""), Ended::well(""));
    assert!(fs::read_to_string(&out).unwrap() == expected);
    assert!(fs::symlink_metadata(format!("{room}/link.html")).unwrap().is_symlink());
    assert_eq!(call(&["report", &case, "--out", "-"], b""), Ended::well(&expected));

    call(&["report", &case, "--out", &room], b"").fails(1, "a directory, and not a file");
    call(&["report", &case, "--out", "/dev/null"], b"").fails(1, "no regular file");
    call(&["report", &case, "--out", &format!("{room}/none/page.html")], b"").fails(1, "none/page.html: ");
    call(&["report", &case, "--out", &format!("{room}/none/")], b"").fails(1, "none/: ");
    call(&["report", &case, "--out", ""], b"").fails(1, "");
    assert_eq!(names_in(&room), ["link.html", "page.html"]);
}

/// A file that can't grow beyond 512 bytes.
#[test]
fn a_failed_write_is_said_and_leaves_what_was_there() {
    let (case, room) = (stored("examples/login.case"), room("page_full"));
    let out = format!("{room}/page.html");
    fs::write(&out, "older").unwrap();
    let script = "trap '' XFSZ; ulimit -f 1; exec \"$0\" report \"$1\" --out \"$2\"";
    let ended =
        Command::new("sh").args(["-c", script, env!("CARGO_BIN_EXE_milestarling"), &case, &out]).output().unwrap();
    let said = String::from_utf8(ended.stderr).unwrap();
    assert!(said.starts_with(&format!("milestarling: {out}: ")), "{said}");
    assert_eq!(ended.status.code(), Some(1));
    assert_eq!(fs::read_to_string(&out).unwrap(), "older");
    assert_eq!(names_in(&room), ["page.html"]);
    let full = fs::OpenOptions::new().write(true).open("/dev/full").unwrap();
    let ended = command(&["report", &case]).stdout(full).output().unwrap();
    assert_eq!(ended.status.code(), Some(1));
    assert!(String::from_utf8(ended.stderr).unwrap().starts_with("milestarling: write: "));
}

#[test]
fn wrong_calls_write_no_page() {
    let room = room("page_wrong");
    let case = format!("{room}/a.case");
    fs::copy(stored("examples/login.case"), &case).unwrap();
    let trace = call(&["trace", &case], b"").wrote;
    call(&["report"], trace.as_bytes()).fails(1, "a trace, which doesn't have the answer");
    call(&["report", &case, "--out", &format!("{room}/./a.case")], b"").fails(2, "is the case itself");
    assert_eq!(fs::read(&case).unwrap(), fs::read(stored("examples/login.case")).unwrap());
    call(&["report", &case, "--out"], b"").fails(2, "--out needs a value");
    call(&["report", &case, &case], b"").fails(2, "one file at a time");
    call(&["report", "--out", &format!("{room}/b.html")], b"nonsense\n").fails(1, "line 1");
    call(&["report", &format!("{room}/none.case")], b"").fails(1, "none.case");
    assert_eq!(names_in(&room), ["a.case"]);
}
