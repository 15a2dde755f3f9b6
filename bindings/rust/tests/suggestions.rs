//! What the command suggests for texts and statements that are almost right.

mod calls;
mod reference;
mod support;

use calls::call;
use milestarling::Instruction;
use support::{allocated_word, Random};

/// What is said of each line, in their order.
fn said(lines: &[String]) -> Vec<String> {
    let ended = call(&["text"], (lines.join("\n") + "\n").as_bytes());
    assert!(ended.wrote.is_empty() && ended.status == Some(1), "{}", ended.wrote);
    let said: Vec<String> = ended.said.lines().map(str::to_string).collect();
    assert_eq!(said.len(), lines.len());
    said
}

/// What is suggested behind what is said.
fn suggested(said: &str) -> Option<&str> {
    said.strip_suffix("`?").and_then(|said| said.rsplit_once("; did you mean `")).map(|(_, text)| text)
}

#[test]
fn a_text_that_is_almost_right_is_told_what_is_wrong() {
    let rows = [
        ("ldr\tx0, [x1, #8]", "a tab stands in it", "ldr x0, [x1, #8]"),
        ("LDR X0, [X1, #8]", "letters are lower case", "ldr x0, [x1, #8]"),
        ("ldr x0,[x1,#8]", "a space is missing or one too many", "ldr x0, [x1, #8]"),
        ("ldr  x0, [ x1 , #8 ] ", "a space is missing or one too many", "ldr x0, [x1, #8]"),
        ("ldr x0, [x1, #0x8]", "numbers are decimal", "ldr x0, [x1, #8]"),
        ("ldur x0, [x1, #-0x8]", "numbers are decimal", "ldur x0, [x1, #-8]"),
        ("ldr x0, [x1, #+8]", "a plus sign", "ldr x0, [x1, #8]"),
        ("ldr x0, [x1, #08]", "a leading zero", "ldr x0, [x1, #8]"),
        ("ldr x0, [x1, 8]", "a number has `#` before it", "ldr x0, [x1, #8]"),
        ("ldr x0 [x1 #8]", "a comma is missing", "ldr x0, [x1, #8]"),
        ("ldr x0, [x1, #0]", "an offset of 0 is written only where lines have one", "ldr x0, [x1]"),
        ("ldr x0, [x1, #-0]", "an offset of 0", "ldr x0, [x1]"),
        ("ldr x0, [x1]!", "an offset of 0", "ldr x0, [x1, #0]!"),
        ("ldxr w0, [x1, #0]", "an offset of 0", "ldxr w0, [x1]"),
        ("ldr x0, [x1, x2, lsl #0]", "an offset of 0", "ldr x0, [x1, x2]"),
        ("ldr w0, [x1, w2, uxtw #0]", "an offset of 0", "ldr w0, [x1, w2, uxtw]"),
        ("ldr x0, [x31, #8]", "the register has another name", "ldr x0, [sp, #8]"),
        ("str x31, [x1]", "the register has another name", "str xzr, [x1]"),
        ("str w31, [x1]", "the register has another name", "str wzr, [x1]"),
        ("stp fp, lr, [sp, #-16]!", "the register has another name", "stp x29, x30, [sp, #-16]!"),
        ("ldr x0, [wsp]", "the register has another name", "ldr x0, [sp]"),
        ("ldr x0, [x1, #-8]", "the offset asks for the scaled or the unscaled name", "ldur x0, [x1, #-8]"),
        ("ldr x0, [x1, #9]", "the offset asks for the scaled or the unscaled name", "ldur x0, [x1, #9]"),
        ("ldrsw x0, [x1, #-4]", "the offset asks for the scaled or the unscaled name", "ldursw x0, [x1, #-4]"),
        ("ldrb x0, [x1]", "a register has another size", "ldrb w0, [x1]"),
        ("ldr x0, [w1]", "a register has another size", "ldr x0, [x1]"),
        ("ldr v0, [x1]", "a register has another size", "ldr q0, [x1]"),
        ("ldr x0, [x1, x2, uxtw #3]", "a register has another size", "ldr x0, [x1, w2, uxtw #3]"),
        ("prfm #0, [x1]", "the hint has a name", "prfm pldl1keep, [x1]"),
        ("prfm #0x15, [x1]", "the hint has a name", "prfm pstl3strm, [x1]"),
        ("lrd x0, [x1, #8]", "the name is misspelt", "ldr x0, [x1, #8]"),
        ("ldrhs w0, [x1]", "the name is misspelt", "ldrsh w0, [x1]"),
        ("ldr x0, [x1, #8] // the length", "a comment stands behind it", "ldr x0, [x1, #8]"),
        ("ldr x0, [x1, #8];", "a comment stands behind it", "ldr x0, [x1, #8]"),
        ("ldr x0, [x1, #\u{2212}8]!", "a sign in it isn't ASCII", "ldr x0, [x1, #-8]!"),
        ("ldr x0, [x1, #8]\r", "a carriage return ends it", "ldr x0, [x1, #8]"),
        // As objdump, llvm-objdump and listings have it.
        ("  400560:\tf9400420 \tldr\tx0, [x1, #8]", "an address or the word's digits", "ldr x0, [x1, #8]"),
        ("       8: f9400420     \tldr\tx0, [x1, #0x8]", "an address or the word's digits", "ldr x0, [x1, #8]"),
        ("f9400420\tldr x0, [x1, #8]\t0", "an address or the word's digits", "ldr x0, [x1, #8]"),
        ("1000\tf9400420\tldr x0, [x1, #8]\t0", "an address or the word's digits", "ldr x0, [x1, #8]"),
        ("LDR\tX0,[FP,0X10]", "a tab stands in it, letters are lower case, ", "ldr x0, [x29, #16]"),
    ];
    let lines: Vec<String> = rows.iter().map(|(line, ..)| line.to_string()).collect();
    for ((line, wrong, text), said) in rows.iter().zip(said(&lines)) {
        assert!(said.contains("`: refused (9): the text isn't the line of any load or store: "), "{said}");
        assert!(said.contains(wrong), "{said}");
        assert_eq!(suggested(&said), Some(*text), "{line}: {said}");
        // The escape is for the terminal, which gets only what ends the line.
        assert!(!said.contains('\t') && said.contains('\r') == line.ends_with('\r'), "{said:?}");
    }
    let escaped = said(&["ldr\rx0\x1b[2J".into()]);
    assert!(escaped[0].contains("`ldr\\rx0\\u{1b}[2J`"), "{escaped:?}");
}

#[test]
fn nothing_is_suggested_that_wasnt_meant() {
    let rows = [
        ("ldxp x0, x1, [x2]", Some("`ldxp` is a load or store of Arm's that isn't taken")),
        ("LDADD x0, x1, [x2]", Some("`ldadd` is a load or store of Arm's that isn't taken")),
        ("ld1 {v0.16b}, [x0]", Some("`ld1` is a load or store of Arm's that isn't taken")),
        ("ldr x0, [x1, #40000]", Some("no line of `ldr` has these operands")),
        ("ldr x0, [x1, x2, lsl #5]", Some("no line of `ldr` has these operands")),
        ("ldr", Some("no line of `ldr` has these operands")),
        ("add x0, x1, x2", None),
        ("", None),
        ("sesame42", None),
        ("#", None),
        ("[[[[[[", None),
        ("ldr x0, [x1, #99999999999999999999]", Some("no line of `ldr`")),
    ];
    let lines: Vec<String> = rows.iter().map(|(line, _)| line.to_string()).collect();
    for ((line, why), said) in rows.iter().zip(said(&lines)) {
        assert_eq!(suggested(&said), None, "{said}");
        match why {
            Some(why) => assert!(said.ends_with(why) || said.contains(why), "{said}"),
            None => assert_eq!(said.rsplit_once("`: ").unwrap().1, NO_LINE, "{line}"),
        }
    }
    let long = "ldr x0, [x1, #8]".repeat(1000);
    assert_eq!(suggested(&said(&[long])[0]), None);
}

const NO_LINE: &str = "refused (9): the text isn't the line of any load or store";

/// A line with its numbers in another form.
fn with_numbers(line: &str, form: impl Fn(&str, u64) -> String) -> String {
    let mut parts = line.split('#');
    let mut made = parts.next().unwrap().to_string();
    for part in parts {
        let (minus, part) = part.strip_prefix('-').map_or(("", part), |part| ("-", part));
        let end = part.find(|digit: char| !digit.is_ascii_digit()).unwrap_or(part.len());
        made += &form(minus, part[..end].parse().unwrap());
        made += &part[end..];
    }
    made
}

/// Every way in which lines of words are written elsewhere leads back to the line.
#[test]
fn lines_written_otherwise_lead_back() {
    let mut random = Random::new(35);
    let (mut written, mut meant) = (Vec::new(), Vec::new());
    for _ in 0..500 {
        let word = allocated_word(&mut random);
        let line = Instruction::new(word).unwrap().to_string();
        let forms = [
            line.to_uppercase(),
            line.replacen(' ', "\t", 1),
            line.replace(", ", ","),
            line.replace(", ", " ,  "),
            line.replace('[', "[ ").replace(']', " ]"),
            with_numbers(&line, |minus, number| format!("#{minus}{number:#x}")),
            with_numbers(&line, |minus, number| format!("{minus}{number}")),
            with_numbers(&line, |minus, number| format!("#{minus}{number:04}")),
            line.replace("x29", "fp").replace("x30", "lr").replace("x16", "ip0"),
            format!("{line}  // what it does"),
            format!("{line}\r"),
            format!("  4005{:02x}:\t{word:08x} \t{}", random.below(256), line.replacen(' ', "\t", 1)),
            format!("{word:08x}\t{line}\t0").to_uppercase(),
            if line.contains("],") { line.to_uppercase() } else { line.replace("]", ", #0]") },
        ];
        for form in forms.into_iter().filter(|form| *form != line && form.parse::<Instruction>().is_err()) {
            written.push(form);
            meant.push(line.clone());
        }
    }
    assert!(written.len() > 4000, "{}", written.len());
    for ((written, meant), said) in written.iter().zip(&meant).zip(said(&written)) {
        assert_eq!(suggested(&said), Some(meant.as_str()), "{written}: {said}");
    }
}

#[test]
fn four_bytes_are_asked_about() {
    let ended = call(&["word", "20", "04", "40", "f9"], b"");
    assert_eq!(ended.wrote.lines().count(), 4, "{ended:?}");
    assert_eq!(
        (ended.said.as_str(), ended.status),
        ("milestarling: did you mean the four bytes of one word? `milestarling word f9400420`\n", Some(0))
    );
    let ended = call(&["word", "20", "04", "40", "f9", "20", "04", "00", "F9"], b"");
    assert!(ended.said.ends_with("`milestarling word f9400420 f9000420`\n"), "{ended:?}");
    for words in
        [&["word", "20", "04", "40"][..], &["word", "20", "04", "40", "f90"], &["word", "20", "04", "40", "zz"]]
    {
        assert!(!call(words, b"").said.contains("did you mean"), "{words:?}");
    }
    let ended = call(&["word"], b"91000000\n20 04 40 f9\n");
    assert!(
        ended.said.contains("line 2: did you mean the four bytes of one word? `milestarling word f9400420`"),
        "{ended:?}"
    );
}

/// What is said of a line of a case.
fn said_of_case(line: &str) -> String {
    let ended = call(&["run"], format!("zeros 8\n{line}\n").as_bytes());
    assert_eq!((ended.wrote.as_str(), ended.status), ("", Some(1)), "{line}");
    let said = ended.said.strip_prefix("milestarling: standard input: line 2: ");
    said.unwrap_or_else(|| panic!("{line}: {}", ended.said)).trim_end().to_string()
}

#[test]
fn a_misspelt_statement_is_told_the_nearest() {
    for (line, form) in [
        ("orign 0x1000", "origin NUMBER"),
        ("Origin 0x1000", "origin NUMBER"),
        ("read-only 8", "readonly NUMBER"),
        ("byte 01 02", "bytes HEX.."),
        ("letter sesame42", "letters LETTERS"),
        ("zeroes 8", "zeros NUMBER"),
        ("taintd letters sesame42", "tainted STATEMENT"),
        ("moniter 0 4", "monitor NUMBER NUMBER"),
        ("imgae plugin.hex", "image FILE"),
        ("words f9400420", "word HEX"),
        ("turns a", "turn NAME"),
        ("plugins a 0 4", "plugin NAME NUMBER NUMBER"),
        ("share 0 4", "shared NUMBER NUMBER"),
        ("X3 5", "x3 NUMBER"),
        ("w3 5", "x3 NUMBER"),
        ("x3=5", "x3 NUMBER"),
        ("x3: 5", "x3 NUMBER"),
        ("v3 5", "q3 NUMBER"),
        ("lr 5", "x30 NUMBER"),
        ("SP 0x1000", "sp NUMBER"),
        ("x2.1 5", "tainted x2.0-3 NUMBER"),
        ("PC 4", "pc NUMBER"),
    ] {
        let said = said_of_case(line);
        assert_eq!(said, format!("{NO_LINE}, nor a statement; did you mean `{form}`?"), "{line}");
    }
    for (line, form) in [("letter sesame42", "letters LETTERS"), ("byte 01", "bytes HEX.."), ("W3 5", "x3 NUMBER")] {
        let said = said_of_case(&format!("tainted {line}"));
        assert!(said.ends_with(&format!("; did you mean `tainted {form}`?")), "{said}");
    }
    let registers = "nor a statement: registers are x0 to x30, sp and q0 to q31";
    assert!(said_of_case("x31 1").ends_with(registers) && said_of_case("q32 1").ends_with(registers));
    assert_eq!(suggested(&said_of_case("LDR X0,[X1]")), Some("ldr x0, [x1]"));
    assert_eq!(said_of_case("sesame42"), NO_LINE);
}

/// What may be a secret isn't repeated.
#[test]
fn a_wrong_line_doesnt_show_a_secret() {
    for line in [
        "tainted x3 0x7365736d653432737365",
        "tainted q3 sesame42",
        "tainted bytes 73 sesame42",
        "tainted zeros sesame42",
        "tainted letter sesame42",
        "tainted sesame42",
        "tainted sesame42 sesame42",
        "tainted x3.1 sesame42",
        "taintd letters sesame42",
        "taint letters sesame42",
        "sesame42",
        "sesame42 sesame42",
        "letters sesa\rsesame42",
    ] {
        let said = said_of_case(line);
        assert!(!said.contains("sesame") && !said.contains("7365"), "{said}");
    }
}

/// A carriage return ends a line or is named, and is never a byte.
#[test]
fn a_carriage_return_is_no_byte() {
    let case = "origin 0x1000\nreadonly 2\nletters ab \nbytes 01\nx0 0x1000\nx1 5\n# a comment\n\nldrb w2, [x0]\n";
    let ran = call(&["run"], case.as_bytes());
    assert!(ran.wrote.ends_with("\n0x1000: 61 62 20 01\n") && ran.status == Some(0), "{ran:?}");
    let returned = case.replace('\n', "\r\n");
    assert_eq!(call(&["run"], returned.as_bytes()), ran);
    assert_eq!(call(&["run"], format!("\u{feff}{returned}").as_bytes()), ran);
    assert_eq!(call(&["trace"], returned.as_bytes()), call(&["trace"], case.as_bytes()));
    let traced = call(&["trace"], case.as_bytes()).wrote;
    let asked = call(&["why", "-", "x2"], traced.as_bytes());
    assert_eq!(call(&["why", "-", "x2"], traced.replace('\n', "\r\n").as_bytes()), asked);
    for line in ["letters a\rb", "letters ab\r\r", "x0 5\r6", "\rx0 5"] {
        assert_eq!(said_of_case(&format!("{line}\r")), "a carriage return inside the line", "{line:?}");
    }
}
