//! The statement of a case that was meant by a line that isn't one. What a line says is never repeated, since it may be
//! secret, and no other statement's values are.

use crate::case::first_word;
use crate::commands::{PLUGIN_STATEMENTS, STATEMENTS};
use crate::meant;
use crate::nearest;
use milestarling::{Refusal, Register, VectorRegister};

/// What is said of a line that begins with no statement's name and was refused as a text.
pub fn said(line: &str, refusal: Refusal) -> String {
    let (name, _) = first_word(line);
    let said = meant::said(line, refusal);
    if said.ends_with('?') {
        return said;
    }
    match statement(name) {
        Some(form) => format!("{refusal}, nor a statement; did you mean `{form}`?"),
        None if is_like_register(name) => {
            format!("{refusal}, nor a statement: registers are x0 to x30, sp and q0 to q31")
        }
        None => said,
    }
}

/// What is said of a name behind `tainted` that nothing has which may be tainted.
pub fn said_of_tainted(name: &str) -> String {
    let forms = ["bytes", "letters", "zeros"];
    let found = register(name).or_else(|| nearest::meant(name, forms).and_then(form_of));
    let meant = found.map_or_else(String::new, |form| format!("; did you mean `tainted {form}`?"));
    format!("tainted are bytes, letters, zeros, x0 to x30, sp or q0 to q31{meant}")
}

/// The form of the statement that a name was meant for.
fn statement(name: &str) -> Option<String> {
    if let Some((register, _)) = name.split_once('.') {
        return is_register(register).then(|| "tainted x2.0-3 NUMBER".into());
    }
    register(name).or_else(|| nearest::meant(name, names().map(|(name, _)| name)).and_then(form_of))
}

/// The names of all statements but those of registers and texts, with their forms.
fn names() -> impl Iterator<Item = (&'static str, &'static str)> {
    let all = STATEMENTS.iter().chain(PLUGIN_STATEMENTS).map(|&(form, _)| (first_word(form).0, form));
    all.filter(|(name, _)| name.len() > 1 && *name != "ldr" && !is_register(name))
}

fn form_of(name: &str) -> Option<String> {
    names().find(|(found, _)| *found == name).map(|(_, form)| form.into())
}

fn is_register(name: &str) -> bool {
    name.parse::<Register>().is_ok() || name.parse::<VectorRegister>().is_ok()
}

/// The form of the statement of a register whose name was meant: in upper case, with a sign behind it, of its low half, or by
/// another name.
fn register(name: &str) -> Option<String> {
    let name = name.to_ascii_lowercase();
    let name = name.split([':', '=', ',']).next().unwrap_or_default();
    let other = match name {
        "fp" => "x29".into(),
        "lr" => "x30".into(),
        "wsp" => "sp".into(),
        _ => match name
            .strip_prefix('w')
            .map(|number| ('x', number))
            .or(name.strip_prefix('v').map(|number| ('q', number)))
        {
            Some((kind, number)) => format!("{kind}{number}"),
            None => name.to_string(),
        },
    };
    is_register(&other).then(|| format!("{other} NUMBER"))
}

fn is_like_register(name: &str) -> bool {
    let mut letters = name.chars();
    let kind = letters.next().is_some_and(|kind| "xwqvrXWQVR".contains(kind));
    let number = letters.as_str();
    kind && !number.is_empty() && number.len() <= 3 && number.bytes().all(|digit| digit.is_ascii_digit())
}
