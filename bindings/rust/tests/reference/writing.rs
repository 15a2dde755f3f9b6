//! "Lines of text", from the word to the line.

use super::decoding::{decode, Family, Instruction, Mode, Operation};
use super::NO_ROOM;
use std::fmt::Write;

fn mnemonic(instruction: &Instruction) -> String {
    if let Family::Pair(mode) = instruction.family {
        let stem = match (mode, instruction.is_store()) {
            (Mode::NoAllocate, true) => "stnp",
            (Mode::NoAllocate, false) => "ldnp",
            (_, true) => "stp",
            (_, false) => "ldp",
        };
        let signed = instruction.operation == Operation::LoadSigned64;
        return format!("{stem}{}", if signed { "sw" } else { "" });
    }
    let (store, load, prefetch) = match instruction.family {
        Family::Exclusive { monitored: true, ordered: false } => ("stxr", "ldxr", ""),
        Family::Exclusive { monitored: true, ordered: true } => ("stlxr", "ldaxr", ""),
        Family::Exclusive { .. } => ("stlr", "ldar", ""),
        Family::Unscaled => ("stur", "ldur", "prfum"),
        Family::Ordered => ("stlur", "ldapur", ""),
        _ => ("str", "ldr", "prfm"),
    };
    // A vector's register says how many bytes it moves.
    let letter = match instruction.size {
        0 if !instruction.vector => "b",
        1 if !instruction.vector => "h",
        _ => "",
    };
    match instruction.operation {
        Operation::Store => format!("{store}{letter}"),
        Operation::Load => format!("{load}{letter}"),
        Operation::Prefetch => prefetch.to_string(),
        Operation::LoadSigned64 | Operation::LoadSigned32 => {
            format!("{load}s{}", if letter.is_empty() { "w" } else { letter })
        }
    }
}

/// A register that is 0 where its number is 31.
fn data_register(wide: bool, number: u8) -> String {
    let letter = if wide { 'x' } else { 'w' };
    if number == 31 {
        format!("{letter}zr")
    } else {
        format!("{letter}{number}")
    }
}

fn base_register(number: u8) -> String {
    if number == 31 {
        "sp".to_string()
    } else {
        format!("x{number}")
    }
}

/// 02's names of three fields, or the number where one of the first two has none.
fn hint(number: u8) -> String {
    let kind = match number >> 3 {
        0 => "pld",
        1 => "pli",
        2 => "pst",
        _ => return format!("#{number}"),
    };
    let level = match number >> 1 & 0b11 {
        0 => "l1",
        1 => "l2",
        2 => "l3",
        _ => return format!("#{number}"),
    };
    let policy = if number & 1 == 0 { "keep" } else { "strm" };
    format!("{kind}{level}{policy}")
}

fn operand(instruction: &Instruction, number: u8) -> String {
    if instruction.vector {
        return format!("{}{number}", ["b", "h", "s", "d", "q"][instruction.size as usize]);
    }
    let wide = match instruction.operation {
        Operation::Prefetch => return hint(number),
        Operation::LoadSigned64 => true,
        Operation::LoadSigned32 => false,
        Operation::Store | Operation::Load => instruction.size == 3,
    };
    data_register(wide, number)
}

fn place(instruction: &Instruction) -> String {
    let base = base_register(instruction.rn);
    let offset = instruction.offset;
    match instruction.family {
        Family::Literal => format!("#{offset}"),
        Family::PostIndex | Family::Pair(Mode::Post) => format!("[{base}], #{offset}"),
        Family::PreIndex | Family::Pair(Mode::Pre) => format!("[{base}, #{offset}]!"),
        Family::Register => {
            let index = data_register(instruction.option & 1 == 1, instruction.rm);
            let extension = match instruction.option {
                0b010 => ", uxtw",
                0b110 => ", sxtw",
                0b111 => ", sxtx",
                // The plain index: it is named only where it is shifted.
                _ if instruction.shifted => ", lsl",
                _ => "",
            };
            let mut text = format!("[{base}, {index}{extension}");
            if instruction.shifted {
                write!(text, " #{}", instruction.size).unwrap();
            }
            text + "]"
        }
        _ if offset == 0 => format!("[{base}]"),
        _ => format!("[{base}, #{offset}]"),
    }
}

/// The line of an instruction.
pub fn line(instruction: &Instruction) -> String {
    let mut text = format!("{} ", mnemonic(instruction));
    if instruction.has_status() {
        text += &data_register(false, instruction.rs);
        text += ", ";
    }
    text += &operand(instruction, instruction.rt);
    text += ", ";
    if instruction.is_pair() {
        text += &operand(instruction, instruction.rt2);
        text += ", ";
    }
    text + &place(instruction)
}

/// Writes the line of a word: the answer and the length.
pub fn write(word: u32, buffer: &mut [u8]) -> (u8, usize) {
    let text = match decode(word) {
        Err(answer) => return (answer, 0),
        Ok(instruction) => line(&instruction),
    };
    match buffer.get_mut(..text.len()) {
        None => (NO_ROOM, 0),
        Some(room) => {
            room.copy_from_slice(text.as_bytes());
            (super::DONE, text.len())
        }
    }
}
