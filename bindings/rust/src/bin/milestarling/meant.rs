//! What was meant by a text that isn't the line of any word. It is brought into the form of the lines step by step, and is
//! suggested only where the proved reader takes it.

use crate::nearest::nearest;
use crate::tokens::{joined, read_number, tokens, Token};
use milestarling::{Instruction, Refusal};
use std::collections::HashSet;

/// Longer texts are no line with a few faults.
const LENGTH_MAX: usize = 200;

/// The most changes behind the usual form that are tried, and the most texts.
const CHANGES_MAX: usize = 3;
const TRIED_MAX: usize = 4096;

/// The names that lines begin with.
const NAMES: &[&str] = &[
    "str", "strb", "strh", "ldr", "ldrb", "ldrh", "ldrsb", "ldrsh", "ldrsw", "prfm", "stur", "sturb", "sturh", "ldur",
    "ldurb", "ldurh", "ldursb", "ldursh", "ldursw", "prfum", "stlur", "stlurb", "stlurh", "ldapur", "ldapurb",
    "ldapurh", "ldapursb", "ldapursh", "ldapursw", "stp", "stnp", "ldp", "ldnp", "ldpsw", "stxr", "stxrb", "stxrh",
    "stlxr", "stlxrb", "stlxrh", "stlr", "stlrb", "stlrh", "ldxr", "ldxrb", "ldxrh", "ldaxr", "ldaxrb", "ldaxrh",
    "ldar", "ldarb", "ldarh",
];

/// How the names of Arm's other loads and stores begin, which aren't misspelt ones of these.
const OTHERS: &[&str] = &[
    "ld1", "ld2", "ld3", "ld4", "st1", "st2", "st3", "st4", "ldxp", "ldaxp", "stxp", "stlxp", "ldtr", "sttr", "ldtp",
    "sttp", "ldtn", "sttn", "ldapr", "ldapp", "ldap1", "stl1", "ldiapp", "stilp", "ldlar", "stllr", "ldra", "ldg",
    "stg", "stzg", "stz2g", "ld64b", "st64b", "ldadd", "ldclr", "ldeor", "ldset", "ldsmax", "ldsmin", "ldumax",
    "ldumin", "stadd", "stclr", "steor", "stset", "stsmax", "stsmin", "stumax", "stumin", "swp", "cas", "rcw", "cpy",
    "setp", "setm", "sete", "setg", "ldff", "ldnf", "ldnt", "stnt", "rprfm", "prfb", "prfh", "prfw", "prfd", "gcsstr",
    "gcssttr",
];

/// The extensions of an index.
const EXTENSIONS: &[&str] = &["lsl", "uxtw", "sxtw", "sxtx", "uxtx"];

/// Names of registers that lines have others for.
const ALIASES: &[(&str, &str)] = &[
    ("fp", "x29"),
    ("lr", "x30"),
    ("ip0", "x16"),
    ("ip1", "x17"),
    ("x31", "sp"),
    ("x31", "xzr"),
    ("w31", "wzr"),
    ("r31", "sp"),
    ("r31", "xzr"),
    ("wsp", "sp"),
    ("zr", "xzr"),
    ("zr", "wzr"),
];

/// What is said of a text that was refused.
pub fn said(line: &str, refusal: Refusal) -> String {
    if let Some(Meant { text, wrong }) = meant(line) {
        return format!("{refusal}: {}; did you mean `{text}`?", wrong.join(", "));
    }
    let name = usual(line).text.split(' ').next().unwrap_or_default().to_string();
    match NAMES.contains(&name.as_str()) {
        true => format!("{refusal}: no line of `{name}` has these operands"),
        false if is_other(&name) => format!("{refusal}: `{name}` is a load or store of Arm's that isn't taken"),
        false => refusal.to_string(),
    }
}

/// A text, and what was wrong with the one that it was made of.
#[derive(Clone)]
pub struct Meant {
    text: String,
    wrong: Vec<&'static str>,
}

impl Meant {
    /// This with another text, if that is another, and with what was wrong.
    fn with(&self, text: String, wrong: &'static str) -> Meant {
        let mut made = Meant { text, wrong: self.wrong.clone() };
        if made.text != self.text && !made.wrong.contains(&wrong) {
            made.wrong.push(wrong);
        }
        made
    }

    fn is_taken(&self) -> bool {
        self.text.parse::<Instruction>().is_ok()
    }
}

/// The text of a line that was meant, by the fewest changes.
pub fn meant(line: &str) -> Option<Meant> {
    if line.len() > LENGTH_MAX {
        return None;
    }
    let mut level = vec![usual(line)];
    let mut tried: HashSet<String> = level.iter().map(|one| one.text.clone()).collect();
    for _ in 0..=CHANGES_MAX {
        if let Some(taken) = level.iter().find(|one| one.is_taken()) {
            return Some(taken.clone());
        }
        let next: Vec<Meant> = level.iter().flat_map(changed).collect();
        level = next.into_iter().filter(|one| tried.len() < TRIED_MAX && tried.insert(one.text.clone())).collect();
    }
    None
}

/// A line in the form that all lines have.
fn usual(line: &str) -> Meant {
    let meant = Meant { text: line.into(), wrong: Vec::new() };
    let text = meant.text.trim_end_matches('\r').to_string();
    let meant = meant.with(text, "a carriage return ends it");
    let text = meant.text.replace(['\u{2212}', '\u{2013}', '\u{2014}'], "-").replace('\u{a0}', " ");
    let meant = meant.with(text, "a sign in it isn't ASCII");
    let text = without_digits(&meant.text);
    let meant = meant.with(text, "an address or the word's digits stand before it");
    let text = without_comment(&meant.text);
    let meant = meant.with(text, "a comment stands behind it");
    let text = meant.text.replace('\t', " ");
    let meant = meant.with(text, "a tab stands in it");
    let text = meant.text.to_ascii_lowercase();
    let meant = meant.with(text, "letters are lower case");
    let read = tokens(&meant.text);
    let meant = meant.with(joined(&read), "a space is missing or one too many");
    let read = with_commas(read);
    let meant = meant.with(joined(&read), "a comma is missing");
    let read = decimal(read);
    let meant = meant.with(joined(&read), "numbers are decimal without a leading zero or a plus sign");
    let read = with_signs(read);
    meant.with(joined(&read), "a number has `#` before it")
}

/// Without the address and the digits that disassemblers and listings have before a text, and without a listing's answer.
fn without_digits(line: &str) -> String {
    let is_hex = |word: &str| !word.is_empty() && word.bytes().all(|digit| digit.is_ascii_hexdigit());
    let is_address = |word: &str| word.strip_suffix(':').is_some_and(is_hex);
    let is_word = |word: &str| word.len() == 8 && is_hex(word);
    let mut rest = line;
    let mut next = || {
        let (word, behind) = rest.trim_start().split_once(char::is_whitespace)?;
        let goes_on = behind.trim_start().split(char::is_whitespace).next().is_some_and(is_word);
        let leads = is_address(word) || is_word(word) || is_hex(word) && goes_on;
        leads.then(|| rest = behind)
    };
    let mut found = false;
    while next().is_some() {
        found = true;
    }
    match rest.rsplit_once('\t') {
        _ if !found => line.into(),
        Some((text, answer)) if matches!(answer.trim(), "0" | "4") => text.trim().into(),
        _ => rest.trim().into(),
    }
}

/// Without what a comment, a separator or a symbol's name behind the text begins.
fn without_comment(line: &str) -> String {
    let end = ["//", "/*", ";", "<", "@"].iter().filter_map(|sign| line.find(sign)).min();
    end.map_or(line, |end| line[..end].trim_end()).into()
}

/// With a comma between two operands, and between the parts of an address.
fn with_commas(tokens: Vec<Token>) -> Vec<Token> {
    let mut whole: Vec<Token> = Vec::new();
    for (at, token) in tokens.into_iter().enumerate() {
        let lacks = match (whole.last(), &token) {
            (Some(Token::Word(before)), next) if at > 1 && !EXTENSIONS.contains(&before.as_str()) => {
                matches!(next, Token::Word(_) | Token::Sign('[' | '#'))
            }
            (Some(Token::Sign(']')), next) => matches!(next, Token::Word(_) | Token::Sign('#')),
            _ => false,
        };
        if lacks {
            whole.push(Token::Sign(','));
        }
        whole.push(token);
    }
    whole
}

/// With numbers in decimal, and a minus sign as the only one.
fn decimal(tokens: Vec<Token>) -> Vec<Token> {
    let mut whole: Vec<Token> = Vec::new();
    for token in tokens {
        let number = match &token {
            Token::Word(word) => read_number(word),
            Token::Sign(_) => None,
        };
        match number {
            Some(number) => {
                match whole.last() {
                    Some(Token::Sign('+')) => drop(whole.pop()),
                    Some(Token::Sign('-')) if number == 0 => drop(whole.pop()),
                    _ => {}
                }
                whole.push(Token::Word(number.to_string()));
            }
            None => whole.push(token),
        }
    }
    whole
}

/// With a `#` before each number.
fn with_signs(tokens: Vec<Token>) -> Vec<Token> {
    let mut whole: Vec<Token> = Vec::new();
    for token in tokens {
        let begins = match &token {
            Token::Word(word) => word.starts_with(|digit: char| digit.is_ascii_digit()),
            Token::Sign(sign) => *sign == '-',
        };
        if begins && !matches!(whole.last(), Some(Token::Sign('#' | '-'))) {
            whole.push(Token::Sign('#'));
        }
        whole.push(token);
    }
    whole
}

/// The texts that one more change makes.
fn changed(from: &Meant) -> Vec<Meant> {
    let (name, operands) = from.text.split_once(' ').unwrap_or((&from.text, ""));
    let mut made = Vec::new();
    let mut add = |text: String, wrong| made.push(from.with(text, wrong));
    zero_offsets(&from.text)
        .into_iter()
        .for_each(|text| add(text, "an offset of 0 is written only where lines have one"));
    for (alias, register) in ALIASES {
        let text = replaced(&from.text, |word| (word == *alias).then(|| register.to_string()));
        text.into_iter().for_each(|text| add(text, "the register has another name"));
    }
    for text in replaced(&from.text, hint_named) {
        add(text, "the hint has a name");
    }
    if let Some(other) = scaled_or_not(name) {
        add(format!("{other} {operands}"), "the offset asks for the scaled or the unscaled name");
    }
    for text in replaced(&from.text, widened) {
        add(text, "a register has another size");
    }
    if !NAMES.contains(&name) && !is_other(name) {
        for near in nearest(name, NAMES) {
            add(format!("{near} {operands}"), "the name is misspelt");
        }
    }
    made
}

fn is_other(name: &str) -> bool {
    OTHERS.iter().any(|other| name.starts_with(other))
}

/// A text with an offset or a shift of 0 put in or left out, and with the extension that is no other than `lsl`.
fn zero_offsets(text: &str) -> Vec<String> {
    let without = [(", #0]", "]"), (" #0]", "]"), (", lsl #0]", "]"), (", lsl]", "]"), (", uxtx]", "]")];
    let with = [("]!", ", #0]!"), ("lsl]", "lsl #0]"), ("uxtx", "lsl")];
    let all = without.iter().chain(&with).filter(|(found, _)| text.contains(found));
    let mut made: Vec<String> = all.map(|(found, instead)| text.replacen(found, instead, 1)).collect();
    if text.ends_with("],") {
        made.push(format!("{text} #0"));
    }
    made
}

/// The name of the scaled form for that of the unscaled one, or the other way about.
fn scaled_or_not(name: &str) -> Option<String> {
    let pairs = [("ldur", "ldr"), ("stur", "str"), ("prfum", "prfm")];
    let swapped = |from: &str, to: &str| name.strip_prefix(from).map(|suffix| format!("{to}{suffix}"));
    let found =
        pairs.iter().find_map(|(unscaled, scaled)| swapped(unscaled, scaled).or_else(|| swapped(scaled, unscaled)));
    found.filter(|found| NAMES.contains(&found.as_str()))
}

/// A register's name for its other size, `x0` for `w0`; and for a vector register, which lines name by its size, `q0`.
fn widened(word: &str) -> Option<String> {
    let (kind, number) = word.split_at(word.len().min(1));
    let is_number = number.bytes().all(|digit| digit.is_ascii_digit()) && !number.is_empty();
    let fits = is_number || number == "zr" && matches!(kind, "w" | "x");
    let other = match kind {
        "w" | "r" => "x",
        "x" => "w",
        "v" => "q",
        _ => return None,
    };
    fits.then(|| format!("{other}{number}"))
}

/// The name of a prefetch's hint for its number.
fn hint_named(word: &str) -> Option<String> {
    let hint: usize = word.strip_prefix('#')?.parse().ok()?;
    let kind = ["pld", "pli", "pst"].get(hint >> 3)?;
    let level = ["l1", "l2", "l3"].get(hint >> 1 & 3)?;
    Some(format!("{kind}{level}{}", ["keep", "strm"][hint & 1]))
}

/// The texts in which one operand or part of one is another, where there is one for it.
fn replaced(text: &str, other: impl Fn(&str) -> Option<String>) -> Vec<String> {
    let is_part = |letter: char| letter.is_ascii_alphanumeric() || letter == '#';
    let mut made = Vec::new();
    let mut start = text.find(' ').unwrap_or(text.len());
    while let Some(begin) = text[start..].find(is_part).map(|at| start + at) {
        let end = text[begin..].find(|letter| !is_part(letter)).map_or(text.len(), |at| begin + at);
        made.extend(other(&text[begin..end]).map(|other| format!("{}{other}{}", &text[..begin], &text[end..])));
        start = end;
    }
    made
}
