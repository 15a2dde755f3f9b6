//! Why a load or store isn't taken: its kind, by Arm's table of loads and stores (DDI 0602), or the condition of docs/RULES.md
//! that refuses it.

use milestarling::{classify, touches_memory, Answer};

const ATOMIC: &str = "atomic (ldadd, swp and others)";
const AUTHENTICATED: &str = "by an authenticated pointer (ldraa, ldrab)";
const BLOCK: &str = "64-byte block (ld64b, st64b)";
const COMPARE_AND_SWAP: &str = "compare and swap (cas, casp)";
const COPY: &str = "memory copy or set (cpy, set)";
const EXCLUSIVE_PAIR: &str = "exclusive pair (ldxp, stxp)";
const GUARDED_STACK: &str = "to a guarded control stack (gcsstr)";
const LIMITED_ORDER: &str = "limited ordering (ldlar, stllr)";
const PROCESSOR_ORDER: &str = "RCpc ordering (ldapr, ldiapp, stilp, and ldapur of vectors)";
const READ_CHECK_WRITE: &str = "read-check-write (rcwcas, rcwswp and others)";
const STRUCTURE: &str = "vector structure (ld1 to ld4, st1 to st4)";
const TAG: &str = "memory tag (ldg, stg)";
const UNKNOWN: &str = "no known load or store";
const UNPRIVILEGED: &str = "unprivileged (ldtr, sttr)";
const ZEROED_BLOCK: &str = "cache block (dc zva, dc gva)";

/// Why a word that touches memory isn't taken; none of a word that is, and of one that doesn't.
pub fn reason(word: u32) -> Option<&'static str> {
    match classify(word) {
        Answer::Done => None,
        Answer::Undefined => Some(undefined(word)),
        Answer::Unpredictable => Some(unpredictable(word)),
        _ => touches_memory(word).then(|| kind(word)),
    }
}

/// The bits from a high one to a low one.
fn field(word: u32, high: u32, low: u32) -> u32 {
    word << (31 - high) >> (31 - high + low)
}

fn bit(word: u32, at: u32) -> bool {
    field(word, at, at) == 1
}

fn has(found: bool, kind: &'static str) -> &'static str {
    if found {
        kind
    } else {
        UNKNOWN
    }
}

/// The kind of a word that is of no row of the set: by bits 29 to 27, 26, and 25 to 24.
fn kind(word: u32) -> &'static str {
    match (field(word, 29, 27), bit(word, 26), field(word, 25, 24)) {
        (0b001, false, 0b00) => exclusive(word),
        (0b001, true, 0b00) => has(is_multiple_structure(word), STRUCTURE),
        (0b001, true, 0b01) => single_structure(word),
        (0b011, _, 0b01) if bit(word, 21) => tag_or_wide_atomic(word),
        (0b011, _, 0b01) => copy_or_ordered(word),
        (0b111, false, 0b00) => atomic_or_unprivileged(word),
        (0b010, _, 0b01) => ZEROED_BLOCK,
        _ => UNKNOWN,
    }
}

/// Pairs, compare and swap, and limited ordering.
fn exclusive(word: u32) -> &'static str {
    let second_unused = field(word, 14, 10) == 31;
    let pairs_even = !bit(word, 16) && !bit(word, 0);
    match (bit(word, 23), bit(word, 21), bit(word, 31)) {
        (false, true, true) => EXCLUSIVE_PAIR,
        (false, true, false) => has(second_unused && pairs_even, COMPARE_AND_SWAP),
        (true, true, _) => has(second_unused, COMPARE_AND_SWAP),
        _ => LIMITED_ORDER,
    }
}

/// `ld1` to `st4` of one to four whole registers. An offset register stands only where the base is written back.
fn is_multiple_structure(word: u32) -> bool {
    let place = !bit(word, 31) && !bit(word, 21) && (bit(word, 23) || field(word, 20, 16) == 0);
    // Elements of 64 bits fill a register of 64 alone.
    let several = !bit(word, 30) && field(word, 11, 10) == 3;
    let operation = match field(word, 15, 12) {
        0b0010 | 0b0110 | 0b0111 | 0b1010 => true,
        0b0000 | 0b0100 | 0b1000 => !several,
        _ => false,
    };
    place && operation
}

/// `ld1` to `st4` of one element each, and `ld1r` to `ld4r`; and `ldap1` and `stl1`.
fn single_structure(word: u32) -> &'static str {
    if word & 0xbfbf_fc00 == 0x0d01_8400 {
        return PROCESSOR_ORDER;
    }
    let place = !bit(word, 31) && (bit(word, 23) || field(word, 20, 16) == 0);
    let element = match (field(word, 15, 14), field(word, 11, 10)) {
        (0b00, _) | (0b01, 0b00 | 0b10) | (0b10, 0b00) => true,
        (0b10, 0b01) => !bit(word, 12),
        (0b11, _) => bit(word, 22) && !bit(word, 12),
        _ => false,
    };
    has(place && element, STRUCTURE)
}

/// What stands beside the ordered family, with bit 21 clear.
fn copy_or_ordered(word: u32) -> &'static str {
    let (size, operation) = (field(word, 31, 30), field(word, 23, 22));
    match (field(word, 11, 10), bit(word, 26)) {
        (0b01, _) => has(is_copy(word), COPY),
        (0b10, true) => has(operation < 2 || size == 0, PROCESSOR_ORDER),
        (0b10, false) => {
            let pair = !bit(word, 23) && field(word, 15, 13) == 0;
            let written_back = bit(word, 23) && field(word, 20, 12) == 0;
            has(bit(word, 31) && (pair || written_back), PROCESSOR_ORDER)
        }
        (0b11, false) => has(word & 0xffff_ec00 == 0xd91f_0c00, GUARDED_STACK),
        _ => UNKNOWN,
    }
}

/// `cpyp` to `setge`, whose registers are three, and whose places aren't 31.
fn is_copy(word: u32) -> bool {
    let sets = field(word, 23, 22) == 3;
    let [target, count, source] = [0, 5, 16].map(|low| field(word, low + 4, low));
    let three = target != count && target != source && count != source;
    let named = target != 31 && (sets || source != 31);
    field(word, 31, 30) == 0 && three && named && !(sets && field(word, 15, 14) == 3)
}

/// What stands beside the ordered family, with bit 21 set: tags, and atomic operations of 128 bits.
fn tag_or_wide_atomic(word: u32) -> &'static str {
    let operation = field(word, 15, 12);
    let pairs_even = !bit(word, 16) && !bit(word, 0);
    let both_named = field(word, 20, 16) != 31 && field(word, 4, 0) != 31;
    match (field(word, 31, 30), bit(word, 26), field(word, 11, 10)) {
        (3, false, 0b00) => has(field(word, 23, 22) == 1 || field(word, 20, 12) == 0, TAG),
        (3, false, _) => TAG,
        (0, false, 0b00) if matches!(operation, 0b0001 | 0b0011 | 0b1000) => has(both_named, ATOMIC),
        (0 | 1, false, 0b00) => has(both_named && matches!(operation, 0b1001..=0b1011), READ_CHECK_WRITE),
        (0 | 1, false, 0b10) => has(operation == 0, READ_CHECK_WRITE),
        (0 | 1, false, 0b11) => has(operation == 0 && pairs_even, READ_CHECK_WRITE),
        _ => UNKNOWN,
    }
}

/// What stands between the unscaled, the indexed and the register family.
fn atomic_or_unprivileged(word: u32) -> &'static str {
    let (size, operation) = (field(word, 31, 30), field(word, 23, 22));
    match (bit(word, 21), field(word, 11, 10)) {
        (false, _) => has(operation < 2 || size < 2 || (size == 2 && operation == 2), UNPRIVILEGED),
        (true, 0b00) => atomic(word),
        (true, _) => has(size == 3, AUTHENTICATED),
    }
}

fn atomic(word: u32) -> &'static str {
    let (size, order) = (field(word, 31, 30), field(word, 23, 22));
    let source_unused = field(word, 20, 16) == 31;
    match (field(word, 15, 12), size) {
        (0b0000..=0b1000, _) => ATOMIC,
        (0b1001..=0b1011, 0 | 1) => READ_CHECK_WRITE,
        (0b1100, _) => has(order == 2 && source_unused, PROCESSOR_ORDER),
        (0b1001 | 0b1101, 3) => has(order == 0 && source_unused, BLOCK),
        (0b1010 | 0b1011, 3) => has(order == 0, BLOCK),
        _ => UNKNOWN,
    }
}

/// The condition by which a word of the set is undefined.
fn undefined(word: u32) -> &'static str {
    match (field(word, 29, 27), field(word, 25, 24)) {
        (0b001, _) if field(word, 23, 22) == 0 => {
            "a store-exclusive's unused register isn't all ones (undefinedSecond)"
        }
        (0b001, _) => "an unused register isn't all ones (undefinedUnused)",
        (0b101, _) if is_tag_pair(word) => "tag with a pair (stgp), undefined here (undefinedPair)",
        (0b101, _) => "a pair without an operation (undefinedPair)",
        (0b011, 0b00) => "a vector literal without a size (undefinedLiteral)",
        (0b111, 0b00) if bit(word, 21) && !bit(word, 14) => "an index without an extension (undefinedOption)",
        (row, wide) if is_indexed_prefetch(word, row, wide) => "a prefetch in a family without one (undefinedPrefetch)",
        _ => "a size without this operation (undefinedSize)",
    }
}

fn is_tag_pair(word: u32) -> bool {
    field(word, 31, 30) == 1 && !bit(word, 26) && !bit(word, 22) && field(word, 24, 23) != 0
}

/// Size 11 and operation 10 of general registers is a prefetch in the other families.
fn is_indexed_prefetch(word: u32, row: u32, wide: u32) -> bool {
    let indexed = row == 0b111 && wide == 0 && !bit(word, 21) && bit(word, 10);
    let prefetch = field(word, 31, 30) == 3 && field(word, 23, 22) == 2 && !bit(word, 26);
    prefetch && (row == 0b011 || indexed)
}

/// The condition by which a word of the set is unpredictable.
fn unpredictable(word: u32) -> &'static str {
    match field(word, 29, 27) {
        0b001 => "the status register is the data's or the base's (unpredictableStatus)",
        0b101 => {
            "a pair loads one register twice, or writes the base back over one of its registers (unpredictablePair)"
        }
        _ => "the base is written back over the register (unpredictableBase)",
    }
}
