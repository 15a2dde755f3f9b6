//! 01's own examples, and the package's types, by their safe names.

use milestarling::{
    listing, raw, step_in, words, Access, Answer, Instruction, Memory, Past, Place, Refusal, Register, Session, Step,
    Taint, TaintedBytes, VectorRegister, VectorTaint, Vectors, Window,
};
use std::array::from_fn;
use std::error::Error;

#[test]
fn examples_of_lines() {
    let examples = [
        (0x385f_f020, "ldurb w0, [x1, #-1]"),
        (0xf940_0420, "ldr x0, [x1, #8]"),
        (0xf841_07e0, "ldr x0, [sp], #16"),
        (0xa9bf_7bfd, "stp x29, x30, [sp, #-16]!"),
        (0x38e4_c862, "ldrsb w2, [x3, w4, sxtw]"),
        (0x1980_00c5, "ldapursb x5, [x6]"),
        (0x58ff_ffe7, "ldr x7, #-4"),
        (0xf880_0020, "prfum pldl1keep, [x1]"),
        (0x3900_03ff, "strb wzr, [sp]"),
        (0x3dc0_07e0, "ldr q0, [sp, #16]"),
        (0x3c62_783f, "ldr b31, [x1, x2, lsl #0]"),
        (0x3ce2_583f, "ldr q31, [x1, w2, uxtw #4]"),
        (0x5c00_0021, "ldr d1, #4"),
        (0xacff_87e0, "ldp q0, q1, [sp], #-16"),
    ];
    for (word, line) in examples {
        assert_eq!(Instruction::new(word).unwrap().to_string(), line);
        assert_eq!(line.parse::<Instruction>().unwrap().word(), word);
        assert_eq!(u32::from(Instruction::try_from(word).unwrap()), word);
    }
    // The last is ldr h0, [x1] with opc 11.
    for word in [0xb8c0_0020, 0x38e0_0862, 0x7dc0_0020] {
        assert_eq!(Instruction::new(word).unwrap_err().answer(), Answer::Undefined);
    }
}

#[test]
fn example_of_a_listing() {
    let bytes = [0x20, 0xf0, 0x5f, 0x38, 0x00, 0x00, 0x00, 0x91, 0x21, 0x84, 0x40, 0xf8, 0xff];
    let expected = "385ff020\tldurb w0, [x1, #-1]\t0\n91000000\t-\t2\nf8408421\tldr x1, [x1], #8\t4\nshort\t-\t1\n";
    assert_eq!(listing(&bytes), expected);
    assert_eq!(listing(&[]), "");
}

/// Bytes from 1 to 16, none tainted.
fn of_16(window: Window) -> Memory<Vec<u8>, Vec<u8>> {
    Memory::new(window, TaintedBytes { bytes: (1..=16).collect(), taint: vec![0; 16] })
}

/// Origin 4096, len 16, r 4, X1 = 4101, byte 128 at 4100, and other bytes elsewhere.
fn example() -> (Session, Memory<Vec<u8>, Vec<u8>>) {
    let (mut session, mut memory) = (Session::new(), of_16(Window::at(4096).readonly(4)));
    memory.write(4100, &[128], false).unwrap();
    session.set(Register::X1, 4101, Taint::NONE);
    (session, memory)
}

/// A step that is no store-exclusive that failed.
fn done(code: u64, address: u64) -> Result<Step, Refusal> {
    Ok(Step::new(Access { code, address }, 0))
}

#[test]
fn examples_of_loads() {
    for (word, value) in [(0x385f_f020, 128), (0x38df_f020, 4294967168), (0x389f_f020, 128u64.wrapping_neg())] {
        let (mut session, mut memory) = example();
        assert_eq!(session.step(&mut memory, word), done(1, 4100));
        assert_eq!(session.get(Register::X0).0, value);
        assert_eq!(session.pc(), 4);
    }
}

#[test]
fn examples_of_refusals() {
    let at = |word, address| {
        let (mut session, mut memory) = example();
        session.set(Register::X1, address, Taint::NONE);
        session.step(&mut memory, word).map_err(|refusal| refusal.answer())
    };
    let load = 0xf940_0020; // ldr x0, [x1]
    assert!(at(load, 4104).is_ok());
    assert_eq!(at(load, 4105), Err(Answer::OutOfWindow));
    let store = 0x3900_0020; // strb w0, [x1]
    assert_eq!(at(store, 4099), Err(Answer::ReadOnly));
    assert!(at(store, 4100).is_ok());
    assert_eq!(at(0xa940_0020, 4096), Err(Answer::Unpredictable));

    let (mut session, mut memory) = (Session::new(), of_16(Window::at(16u64.wrapping_neg())));
    // ldurb, ldurh and ldapurh w0, [x1, #-1], with 0 in x1
    assert_eq!(session.step(&mut memory, 0x385f_f020), done(1, u64::MAX));
    assert_eq!(session.get(Register::X0).0, 16);
    assert_eq!(session.step(&mut memory, 0x785f_f020).unwrap_err().answer(), Answer::OutOfWindow);
    assert_eq!(session.step(&mut memory, 0x595f_f020).unwrap_err().answer(), Answer::Misaligned);
}

/// CR 1: `ldr x0, [sp], #16` is done where SP is a multiple of 16, and refused with SP's own value where it isn't.
#[test]
fn a_stack_pointer_is_aligned() {
    for sp in 4096..4104 {
        let (mut session, mut memory) = example();
        session.set(Register::SP, sp, Taint::NONE);
        let before = session.clone();
        let stepped = session.step(&mut memory, 0xf841_07e0);
        if sp == 4096 {
            assert_eq!(stepped, done(8, sp));
            assert_eq!(session.get(Register::SP).0, 4112);
        } else {
            let refusal = stepped.unwrap_err();
            assert_eq!((refusal.answer(), refusal.address()), (Answer::Misaligned, Some(sp)));
            assert_eq!(session, before);
        }
    }
}

#[test]
fn lent_memory_is_changed_in_place() {
    let (mut memory, mut taint): ([u8; 16], [u8; 16]) = (from_fn(|at| 50 + at as u8), from_fn(|at| 7 + at as u8));
    let (mut left, mut left_taint) = (memory, taint);
    let lent = TaintedBytes { bytes: &mut memory[..], taint: &mut taint[..] };
    let mut session = Session::new();
    session.set(Register::X0, 0x0102, Taint::NONE);
    assert_eq!(session.step(&mut Memory::new(Window::at(0), lent), 0x7900_0020), done(66, 0)); // strh w0, [x1]
    left[..2].copy_from_slice(&[2, 1]);
    left_taint[..2].fill(0);
    assert_eq!((session.pc(), memory, taint), (4, left, left_taint));
}

#[test]
fn a_run_keeps_what_was_done_before_a_refusal() {
    let (mut session, mut memory) = example();
    let words = [0x385f_f020, 0x3800_1420, 0x0000_0000, 0x385f_f020]; // ldurb, strb w0, [x1], #1, not of the set
    let rest: [Access; 5] = from_fn(|at| Access { code: 90 + at as u64, address: 99 - at as u64 });
    let (mut trace, mut statuses) = (rest, [7, 8, 9, 10, 11]);
    let refusal = session.run(&mut memory, &words, &mut trace, &mut statuses).unwrap_err();
    assert_eq!((refusal.answer(), refusal.steps(), refusal.address()), (Answer::NotInSet, 2, None));
    assert_eq!(trace[..2], [Access { code: 1, address: 4100 }, Access { code: 65, address: 4101 }]);
    assert_eq!((&trace[2..], statuses), (&rest[2..], [0, 0, 9, 10, 11]));
    assert_eq!((session.get(Register::X1).0, session.pc()), (4102, 8));
    assert_eq!(refusal.word(), Some(0));
    let said = "refused (2): the word is no load or store that this machine takes, by 00000000, after 2 steps";
    assert_eq!(refusal.to_string(), said);
}

#[test]
fn a_run_not_begun_changes_nothing() {
    let (mut session, mut memory) = example();
    let before = session.clone();
    for (accesses, places) in [(1, 2), (2, 1), (0, 0)] {
        let (mut trace, mut statuses) = (vec![Access::default(); accesses], vec![9; places]);
        let refusal = session.run(&mut memory, &[0x385f_f020; 2], &mut trace, &mut statuses).unwrap_err();
        assert_eq!((refusal.answer(), refusal.steps()), (Answer::NoRoom, 0));
        assert!(trace.iter().all(|access| access.code == 0) && statuses.iter().all(|&status| status == 9));
    }
    memory.window.readonly = 17;
    assert_eq!(session.run(&mut memory, &[], &mut [], &mut []).unwrap_err().answer(), Answer::BadWindow);
    memory.window.readonly = 16;
    let run = session.run(&mut memory, &[], &mut [], &mut []).unwrap();
    assert_eq!((run.steps, run.last), (0, Step::default()));
    assert!(session == before);
}

#[test]
fn an_access_says_its_bytes() {
    let load = Access { code: 16, address: 4096 };
    assert_eq!((load.bytes(), load.is_store(), load.is_prefetch()), (16, false, false));
    for bytes in [&[][..], &[1], &[0; 100]] {
        let store = Access::store(4096, bytes);
        assert_eq!((store.bytes(), store.is_store(), store.address), (bytes.len() as u64, true, 4096));
    }
    assert_eq!(Access::store(4096, &[0; 100]).to_string(), "store of 100 at 0x1000");
}

#[test]
fn answers_have_their_numbers() {
    let numbers = [0, 1, 2, 3, 4, 5, 6, 7, 8, 9, 10, 11, 12, 13, 14, 15, 16, 17, 18];
    assert_eq!(Answer::ALL.iter().map(|answer| answer.number()).collect::<Vec<u8>>(), numbers);
    for &answer in Answer::ALL {
        assert_eq!(Answer::try_from(u64::from(answer)), Ok(answer));
        assert_eq!(answer.is_refusal(), answer != Answer::Done);
        assert!(!answer.to_string().is_empty());
    }
    for number in [19, 255, 256, 1 << 32, u64::MAX] {
        assert_eq!(Answer::try_from(number).unwrap_err().0, number);
    }
}

#[test]
fn a_refusal_is_an_error() {
    fn parse(line: &str) -> Result<u32, Box<dyn Error + Send + Sync>> {
        Ok(line.parse::<Instruction>()?.word())
    }
    assert!(parse("ldr x0, [x1, #8]").is_ok());
    let error = parse("ldr x0, [x1, #9]").unwrap_err();
    assert_eq!(error.downcast_ref::<Refusal>().unwrap().answer(), Answer::NoSuchText);
}

/// What is tainted is a secret, and a log is read by many.
#[test]
fn a_tainted_byte_is_not_shown() {
    let mut session = Session::new();
    let mut shown = |taint| {
        session.set(Register::X3, 0x5e_c3e7, taint);
        let shown = session.shown(Register::X3).to_string();
        assert!(format!("{session:?}").contains(&format!("x3: {shown}, x4: 0x0,")), "{session:?}");
        shown
    };
    assert_eq!(shown(Taint::NONE), "0x5ec3e7");
    assert_eq!(shown(Taint::bytes(0..2)), "0x00000000005e****");
    assert_eq!(shown(Taint::bytes(1..=1) | Taint::bytes(7..)), "0x**000000005e**e7");
    assert_eq!(shown(Taint::from_raw(0x8000_0200)), "0x00000000**5e**e7");
    assert_eq!(shown(Taint::ALL), "0x****************");
    assert!(!format!("{:?}", example().1).contains("128"));
}

/// A word is read by its digits in hexadecimal, wherever it is shown.
#[test]
fn a_word_is_shown_in_hexadecimal() {
    let refusal = Session::new().step(&mut Memory::zeroed(Window::at(0), 0), 0xf9400020).unwrap_err();
    let shown = "Refusal { answer: OutOfWindow, steps: 0, address: Some(0), word: Some(0xf9400020) }";
    assert_eq!(format!("{refusal:?}"), shown);
    assert_eq!(format!("{:?}", raw::word(b"ldrb w0, [x1]")), "WordReply { answer: 0, word: 0x39400020 }");
    let mut memory = Memory::zeroed(Window::at(4096), 8);
    memory.write(4096, &[1], true).unwrap();
    let mut session = Session::new();
    session.set(Register::X0, 4096, Taint::NONE);
    let (past, _) = Past::run(&mut session, &mut memory, &[0x39400002]);
    let links = past.why(Place::Register(Register::X2, 0), 1).unwrap();
    assert!(
        format!("{:?}", links[0]).contains("Copied { step: 0, word: 0x39400002, from: Memory(4096) }"),
        "{links:?}"
    );
}

/// The library that is linked is of the package's version.
#[test]
fn the_library_has_the_packages_version() {
    let parts: Vec<u32> = env!("CARGO_PKG_VERSION").split('.').map(|part| part.parse().unwrap()).collect();
    assert_eq!(raw::version(), parts[0] * 1_000_000 + parts[1] * 1000 + parts[2]);
}

/// Reads and writes of the host's own reach what is inside memory, and only that.
#[test]
fn a_host_reads_what_it_wrote() {
    let mut memory = Memory::zeroed(Window::at(4096).readonly(16), 16);
    memory.write(4100, &[1, 2, 3], true).unwrap();
    let read = memory.read(4099, 5).unwrap();
    assert_eq!((read.bytes, read.taint), (&[0, 1, 2, 3, 0][..], &[0, 1, 1, 1, 0][..]));
    assert_eq!(memory.read(4096, 16).unwrap().bytes, memory.bytes());
    assert!(memory.read(0, 0).unwrap().bytes.is_empty());
    for (address, length) in [(4095, 1), (4096, 17), (4111, 2), (4112, 1), (u64::MAX, 2), (4096, usize::MAX)] {
        let refusal = memory.read(address, length).err().unwrap();
        assert_eq!(
            (refusal.answer(), refusal.address()),
            (Answer::OutOfWindow, Some(address)),
            "{length} at {address}"
        );
    }
    let short = Memory::new(Window::at(4096), TaintedBytes { bytes: [0; 16], taint: [0; 15] });
    assert_eq!(short.read(4096, 1).err().unwrap().answer(), Answer::BadWindow);
}

/// `docs/ANSWERS.md` and the C header say the same of each answer.
#[test]
fn answers_are_said_in_one_way() {
    let stored = include_str!("../../../docs/ANSWERS.md");
    let table = stored.split("| Answer | Text |\n|---|---|\n").nth(1).expect("the table of texts");
    let said: String = Answer::ALL.iter().map(|answer| format!("| {} | {answer} |\n", answer.number())).collect();
    assert_eq!(table, said);
}

#[test]
fn a_value_goes_with_its_taint() {
    let mut session = Session::new();
    for register in Register::all() {
        for taint in [Taint::ALL, Taint::bytes(7..8), Taint::bytes(..4), Taint::NONE] {
            session.set(register, 5, taint);
            let known = taint.is_none().then_some(5);
            assert_eq!(session.get(register), (5, taint));
            assert_eq!((session.known(register), session.is_tainted(register)), (known, known.is_none()));
            let bytes = from_fn(|byte| (!taint.contains(byte)).then_some(if byte == 0 { 5 } else { 0 }));
            assert_eq!(session.known_bytes(register), bytes);
        }
        assert_eq!(register.to_string().parse(), Ok(register));
    }
    for name in ["x31", "X0", "x01", "wsp", "", "x+1"] {
        assert!(name.parse::<Register>().is_err(), "{name}");
    }
    assert_eq!(session.pc(), 0);
    session.set_pc(1 << 63);
    assert_eq!(session.get(Register::SP), (5, Taint::NONE));
    let (record, _) = session.as_raw_mut();
    (record.value[3], record.value_taint[3]) = (9, Taint::from_raw(0x80ff_0002_0000_1000));
    assert_eq!(session.get(Register::X3), (9, Taint::bytes(1..2) | Taint::bytes(4..5) | Taint::bytes(6..)));
}

#[test]
fn a_vector_goes_with_its_taint() {
    let value = u128::from_le_bytes(from_fn(|at| 0xf0 + at as u8));
    let mut vectors = Vectors::new();
    for register in VectorRegister::all() {
        let taints = [VectorTaint::ALL, VectorTaint::bytes(15..), VectorTaint::bytes(..1), VectorTaint::bytes(7..9)];
        for taint in taints.into_iter().chain([VectorTaint::NONE]) {
            vectors.set(register, value, taint);
            let known = taint.is_none().then_some(value);
            assert_eq!(vectors.get(register), (value, taint));
            assert_eq!((vectors.known(register), vectors.is_tainted(register)), (known, known.is_none()));
            let bytes = from_fn(|byte| (!taint.contains(byte)).then_some(0xf0 + byte as u8));
            assert_eq!(vectors.known_bytes(register), bytes);
        }
        assert_eq!(register.to_string().parse(), Ok(register));
        assert!(
            VectorRegister::all().all(|other| vectors.known(other) == Some(if other <= register { value } else { 0 }))
        );
    }
    for name in ["q32", "Q0", "q01", "v0", "", "q+1", "x0"] {
        assert!(name.parse::<VectorRegister>().is_err(), "{name}");
    }
    let record = vectors.as_raw_mut();
    (record.value[3], record.taint[3]) = ([9, 8], [Taint::from_raw(0x80ff_0002_0000_1000), Taint::from_raw(2)]);
    let taint = VectorTaint::halves(Taint::bytes(1..2) | Taint::bytes(4..5) | Taint::bytes(6..), Taint::bytes(..1));
    assert_eq!(vectors.get(VectorRegister::V3), (8 << 64 | 9, taint));
    let shown = |taint| {
        let mut vectors = Vectors::new();
        vectors.set(VectorRegister::V9, 0x5e_c2e7, taint);
        format!("{} {vectors:?}", vectors.shown(VectorRegister::V9))
    };
    assert_eq!(shown(VectorTaint::NONE), "0x5ec2e7 {q9: 0x5ec2e7}");
    let secret = "0x****************00000000005e****";
    assert_eq!(shown(VectorTaint::bytes(..2) | VectorTaint::bytes(8..)), format!("{secret} {{q9: {secret}}}"));
}

/// A load of each width fills so many bytes of v31 and clears the others, with their taints, and no other register.
#[test]
fn a_load_clears_what_it_does_not_fill() {
    for (scale, letter) in "bhsdq".chars().enumerate() {
        let mut memory = of_16(Window::at(4096));
        memory.write(4096, &[1, 2], true).unwrap();
        memory.write(4097, &[2], false).unwrap();
        let mut session = Session::new();
        session.set(Register::X1, 4096, Taint::NONE);
        for register in VectorRegister::all() {
            session.vectors_mut().set(register, u128::MAX, VectorTaint::ALL);
        }
        let before = session.clone();
        let load: Instruction = format!("ldr {letter}31, [x1]").parse().unwrap();
        assert_eq!(session.step(&mut memory, load.word()), done(1 << scale, 4096));
        let value = (0..1 << scale).rev().fold(0, |value, byte| value << 8 | (byte + 1));
        assert_eq!(session.vectors().get(VectorRegister::V31), (value, VectorTaint::bytes(..1)));
        let mut expected = before.clone();
        expected.set_pc(4);
        expected.vectors_mut().set(VectorRegister::V31, value, VectorTaint::bytes(..1));
        assert_eq!(session, expected);
    }
}

/// A password is copied by a vector register, and its letters are secrets in the copy.
#[test]
fn a_vector_copies_bytes_with_their_taints() {
    let mut memory = Memory::zeroed(Window::at(0x1000), 64);
    memory.write(0x1000, b"sesame42-a note.", false).unwrap();
    memory.write(0x1000, b"sesame42", true).unwrap();
    let mut session = Session::new();
    session.set(Register::X0, 0x1000, Taint::NONE);
    session.set(Register::X1, 0x1020, Taint::NONE);
    let mut step = |line: &str| {
        let done = session.step(&mut memory, line.parse::<Instruction>().unwrap().word());
        (done.map_err(|refusal| refusal.answer()), session.get(Register::X2))
    };
    let of = |code, address| done(code, address).map_err(|refusal| refusal.answer());
    assert_eq!(step("ldp q1, q31, [x0], #0").0, of(32, 0x1000));
    assert_eq!(step("stur q1, [x1, #-8]").0, of(80, 0x1018));
    assert_eq!(step("stp q31, q1, [x1]").0, of(96, 0x1020));
    assert_eq!(step("ldrb w2, [x1, #24]").1, (u64::from(b'-'), Taint::NONE));
    assert_eq!(step("ldrb w2, [x1, #16]").1, (u64::from(b's'), Taint::bytes(..1)));
    assert_eq!(step("ldr q0, [x0, x2]").0, Err(Answer::TaintedAddress));
    assert_eq!(step("ldr q1, [x1], #16").0, of(16, 0x1020));
    assert_eq!(step("ldr q1, [x1, #32]!").0, Err(Answer::OutOfWindow));
    assert_eq!(step("ldp q2, q2, [x1]").0, Err(Answer::Unpredictable));
    assert_eq!(memory.taint()[0x18..0x20], [1; 8]);
    assert_eq!(memory.bytes()[0x18..0x20], *b"sesame42");
    assert_eq!(memory.bytes()[0x30..], *b"sesame42-a note.");
    assert_eq!(memory.taint()[0x28..0x40], [0, 0, 0, 0, 0, 0, 0, 0, 1, 1, 1, 1, 1, 1, 1, 1, 0, 0, 0, 0, 0, 0, 0, 0]);
}

/// One tainted byte of a doubleword, spilled and reloaded: the others can be indices, and that one can't.
#[test]
fn an_untainted_byte_is_an_index_beside_a_tainted_one() {
    let mut memory = Memory::zeroed(Window::at(0x1000), 64);
    memory.write(0x1000, &[b's', 3], false).unwrap();
    memory.write(0x1000, b"s", true).unwrap();
    let mut session = Session::new();
    session.set(Register::X0, 0x1000, Taint::NONE);
    session.set(Register::SP, 0x1040, Taint::NONE);
    let mut step = |line: &str| {
        let done = session.step(&mut memory, line.parse::<Instruction>().unwrap().word());
        (done.map_err(|refusal| refusal.answer()), session.get(Register::X1).1)
    };
    assert_eq!(step("ldr x1, [x0]").1, Taint::bytes(..1));
    assert_eq!(step("str x1, [sp, #-16]!").0, done(72, 0x1030).map_err(|refusal| refusal.answer()));
    assert_eq!(step("ldrsh x1, [sp]").1, Taint::bytes(..1));
    assert_eq!(step("ldrsb w1, [sp]").1, Taint::bytes(..4));
    assert_eq!(step("ldrb w2, [x0, x1]").0, Err(Answer::TaintedAddress));
    assert_eq!(step("ldrb w1, [sp, #1]").1, Taint::NONE);
    assert_eq!(step("ldrb w2, [x0, x1]").0, done(1, 0x1003).map_err(|refusal| refusal.answer()));
}

/// The host's mistake that the documents warn of, and the same with the taint carried.
#[test]
fn a_host_that_drops_a_taint_shows_the_secret() {
    let run = |letter: u8, carried: bool| {
        let mut memory = Memory::zeroed(Window::at(0x1000), 32);
        memory.write(0x1000, &[letter], true).unwrap();
        let mut session = Session::new();
        session.set(Register::X0, 0x1000, Taint::NONE);
        session.set(Register::X7, 0x1010, Taint::NONE);
        session.step(&mut memory, 0x3940_0001).unwrap(); // ldrb w1, [x0]
        let (value, taint) = session.get(Register::X1);
        session.set(Register::X2, value & 15, if carried { taint } else { Taint::NONE });
        session.step(&mut memory, 0x3862_68e3) // ldrb w3, [x7, x2]
    };
    assert_eq!(run(b's', false), done(1, 0x1013));
    assert_eq!(run(b'o', false), done(1, 0x101f));
    assert_eq!(run(b's', true).unwrap_err().answer(), Answer::TaintedAddress);
}

#[test]
fn bytes_are_put_with_their_taint() {
    let mut memory = Memory::new(Window::at(u64::MAX - 7).readonly(8), TaintedBytes { bytes: [0; 8], taint: [9; 8] });
    assert!(memory.write(u64::MAX - 1, &[1, 2], false).is_ok());
    assert!(memory.write(u64::MAX - 7, &[3], true).is_ok());
    assert_eq!((memory.bytes(), memory.taint()), (&[3, 0, 0, 0, 0, 0, 1, 2][..], &[1, 9, 9, 9, 9, 9, 0, 0][..]));
    assert!(memory.write(5, &[], true).is_ok());
    for (address, bytes) in [(u64::MAX, &[1, 2][..]), (u64::MAX - 8, &[1, 2]), (0, &[1]), (u64::MAX - 7, &[0; 9])] {
        let before = memory.clone();
        let refusal = memory.write(address, bytes, false).unwrap_err();
        assert_eq!((refusal.answer(), refusal.address()), (Answer::OutOfWindow, Some(address)));
        assert_eq!((before.bytes(), before.taint()), (memory.bytes(), memory.taint()));
    }
    let mut short = Memory::new(Window::at(0), TaintedBytes { bytes: [0; 8], taint: [0; 7] });
    assert_eq!(short.write(0, &[1], false).unwrap_err().answer(), Answer::BadWindow);
}

#[test]
fn a_step_finds_its_region() {
    let region = |origin, readonly, byte| {
        Memory::new(Window::at(origin).readonly(readonly), TaintedBytes { bytes: vec![byte; 32], taint: vec![0; 32] })
    };
    let mut regions = [region(0x1000, 32, 1), region(0x1020, 0, 2), region(16u64.wrapping_neg() - 16, 0, 3)];
    let mut session = Session::new();
    let mut at = |address, word| {
        session.set(Register::X1, address, Taint::NONE);
        let done = step_in(&mut regions, &mut session, word).map_err(|refusal| refusal.answer());
        done.map(|done| (done.access.address, session.get(Register::X0).0 as u8))
    };
    let (load, store) = (0xf940_0020, 0xf900_0020); // ldr and str x0, [x1]
    assert_eq!(at(0x1018, load), Ok((0x1018, 1)));
    assert_eq!(at(0x1020, load), Ok((0x1020, 2)));
    assert_eq!(at(0x1019, load), Err(Answer::OutOfWindow));
    assert_eq!(at(0x1039, load), Err(Answer::OutOfWindow));
    assert_eq!(at(0xfff, load), Err(Answer::OutOfWindow));
    assert_eq!(at(8u64.wrapping_neg(), load), Ok((8u64.wrapping_neg(), 3)));
    assert_eq!(at(0x1000, store), Err(Answer::ReadOnly));
    assert_eq!(at(0x1020, store), Ok((0x1020, 3)));
    assert_eq!(at(0, 0xf980_0020), Ok((0, 3))); // prfm pldl1keep, [x1]
    assert_eq!(at(0, 0), Err(Answer::NotInSet));
    assert_eq!(regions[1].bytes()[..9], [3, 3, 3, 3, 3, 3, 3, 3, 2]);
    let mut none: [Memory<Vec<u8>, Vec<u8>>; 0] = [];
    assert_eq!(step_in(&mut none, &mut Session::new(), load).unwrap_err().answer(), Answer::OutOfWindow);
}

#[test]
fn an_image_is_gone_through_word_by_word() {
    let image: Vec<u8> =
        [0xf940_0420_u32, 0, 0xb8c0_0020].iter().flat_map(|word| word.to_le_bytes()).chain([7, 8]).collect();
    let found = words(&image, u64::MAX - 3);
    assert_eq!((found.len(), found.rest()), (3, &[7, 8][..]));
    let answers: Vec<_> = found.map(|(at, word, read)| (at, word, read.map_err(|refusal| refusal.answer()))).collect();
    let load = Instruction::new(0xf940_0420).unwrap();
    let expected = [
        (u64::MAX - 3, 0xf940_0420, Ok(load)),
        (0, 0, Err(Answer::NotInSet)),
        (4, 0xb8c0_0020, Err(Answer::Undefined)),
    ];
    assert_eq!(answers, expected);
    assert!(words(&[1, 2, 3], 0).next().is_none());
}

#[test]
fn a_refusal_names_its_word() {
    assert_eq!(Instruction::new(0xb8c0_0020).unwrap_err().word(), Some(0xb8c0_0020));
    assert_eq!("ldr".parse::<Instruction>().unwrap_err().word(), None);
    let (mut session, mut memory) = example();
    let words = [0x385f_f020, 0xb8c0_0020];
    let refusal = session.run(&mut memory, &words, &mut [Access::default(); 2], &mut [0; 2]).unwrap_err();
    let said = "refused (3): the word is an undefined load or store, by b8c00020, after 1 step";
    assert_eq!((refusal.word(), refusal.to_string().as_str()), (Some(0xb8c0_0020), said));
    memory.window.readonly = 17;
    assert_eq!(session.step(&mut memory, 0x385f_f020).unwrap_err().word(), None);
    assert_eq!(session.run(&mut memory, &[0x385f_f020], &mut [], &mut []).unwrap_err().word(), None);
}

/// A spin lock taken and lost: a run leaves and says what its steps do one by one.
#[test]
fn a_run_is_its_steps() {
    let words = [0x885f_fc01, 0x8803_7c02, 0x8803_7c02, 0x385f_f020]; // ldaxr w1, [x0]; stxr w3, w2, [x0] twice; ldurb
    let (mut ours, mut memory) = example();
    ours.set(Register::X0, 4100, Taint::NONE);
    ours.set(Register::X2, 1, Taint::bytes(1..8));
    let (mut theirs, mut region) = (ours.clone(), memory.clone());
    let (mut trace, mut statuses) = ([Access::default(); 4], [9; 4]);
    let refusal = ours.run(&mut memory, &words, &mut trace, &mut statuses).unwrap_err();
    assert_eq!((refusal.answer(), refusal.steps(), statuses), (Answer::OutOfWindow, 3, [0, 0, 1, 9]));
    for (at, &word) in words[..3].iter().enumerate() {
        assert_eq!(theirs.step(&mut region, word), Ok(Step::new(trace[at], statuses[at])));
    }
    assert!(ours == theirs && ours.monitor().is_none());
    assert_eq!((memory.bytes(), memory.taint()), (region.bytes(), region.taint()));
    assert_eq!(memory.into_parts().taint[4..9], [0, 1, 1, 1, 0]);

    let run = theirs.run(&mut region, &words[2..3], &mut trace, &mut statuses).unwrap();
    assert_eq!((run.steps, run.last.to_string()), (1, "store of 4 at 0x1004, which failed".to_string()));
}
