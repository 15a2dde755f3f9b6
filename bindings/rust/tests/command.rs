//! The command `milestarling`: what it writes, what it says, and its status.

mod calls;

use calls::{call, command, made, stored, Ended};
use std::fs::{self, File};
use std::path::Path;
use std::process::{Command, Stdio};

const EXAMPLE: [u8; 13] = [0x20, 0xf0, 0x5f, 0x38, 0x00, 0x00, 0x00, 0x91, 0x21, 0x84, 0x40, 0xf8, 0xff];
const LISTED: &str = "385ff020\tldurb w0, [x1, #-1]\t0\n91000000\t-\t2\nf8408421\tldr x1, [x1], #8\t4\nshort\t-\t1\n";

#[test]
fn lists_a_file_or_standard_input() {
    assert_eq!(call(&["list"], &EXAMPLE), Ended::well(LISTED));
    assert_eq!(call(&["list", "-"], &EXAMPLE), Ended::well(LISTED));
    let path = made("example.bin", &EXAMPLE);
    assert_eq!(call(&["list", path.to_str().unwrap()], b""), Ended::well(LISTED));
    assert_eq!(call(&["list"], b""), Ended::well(""));
    let expected = fs::read_to_string(stored("crates/list/stdout")).unwrap();
    assert_eq!(call(&["list", &stored("crates/list/stdin")], b""), Ended::well(&expected));
    for cut in 0..EXAMPLE.len() {
        assert_eq!(call(&["list"], &EXAMPLE[..cut]), Ended::well(&milestarling::listing(&EXAMPLE[..cut])));
    }
}

#[test]
fn lists_with_addresses() {
    let addresses = ["fffffffffffffffc", "0", "4", "8"];
    let listed: String = addresses.iter().zip(LISTED.lines()).map(|(at, line)| format!("{at}\t{line}\n")).collect();
    for at in ["0xfffffffffffffffc", "18446744073709551612"] {
        assert_eq!(call(&["list", "--at", at], &EXAMPLE), Ended::well(&listed));
    }
    call(&["list", "--at"], b"").fails(2, "--at needs a value");
    call(&["list", "--at", "1", "--at", "2"], b"").fails(2, "twice");
    for wrong in ["x", "-1", "+1", "", "0x", "18446744073709551616", "0x10000000000000000"] {
        call(&["list", "--at", wrong], b"").fails(2, "is no number of 64 bits");
    }
}

/// An ELF file with segments of a type, flags, an address and bytes.
fn elf(segments: &[(u32, u32, u64, &[u8])]) -> Vec<u8> {
    let mut file = vec![0; 64];
    file[..6].copy_from_slice(b"\x7fELF\x02\x01");
    file[18] = 183;
    file[32] = 64;
    file[54] = 56;
    file[56] = segments.len() as u8;
    let mut offset = 64 + 56 * segments.len() as u64;
    for (kind, flags, address, bytes) in segments {
        file.extend(kind.to_le_bytes());
        file.extend(flags.to_le_bytes());
        let length = bytes.len() as u64;
        for number in [offset, *address, *address, length, length, 4] {
            file.extend(number.to_le_bytes());
        }
        offset += length;
    }
    segments.iter().for_each(|segment| file.extend(segment.3));
    file
}

#[test]
fn lists_the_executable_segments_of_an_elf_file() {
    let load = [0x20, 0x04, 0x40, 0xf9];
    let store = [0x20, 0x04, 0x00, 0xf9, 1];
    let file = elf(&[(1, 4, 0, &load), (1, 5, 0x1000, &load), (6, 5, 0x2000, &load), (1, 1, 0x3000, &store)]);
    let listed = "1000\tf9400420\tldr x0, [x1, #8]\t0\n3000\tf9000420\tstr x0, [x1, #8]\t0\n3004\tshort\t-\t1\n";
    assert_eq!(call(&["list"], &file), Ended::well(listed));
    call(&["list", "--at", "0"], &file).fails(2, "addresses of its own");

    // Cut anywhere it is said to be damaged; a file of fewer than four bytes is no ELF file yet.
    for cut in 4..file.len() {
        call(&["list"], &file[..cut]).fails(1, "a damaged ELF file");
    }
    let with = |place: usize, byte: u8| {
        let mut file = file.clone();
        file[place] = byte;
        call(&["list"], &file)
    };
    for (place, byte) in [(4, 1), (5, 2), (18, 62), (19, 1)] {
        with(place, byte).fails(1, "not a 64-bit little-endian one for AArch64");
    }
    with(54, 55).fails(1, "55 bytes each");
    with(39, 0xff).fails(1, "its table of program headers lies behind its end");
    with(64 + 56 + 15, 0xff).fails(1, "an executable segment lies behind its end");
    with(64 + 56 + 39, 0xff).fails(1, "an executable segment lies behind its end");
    call(&["list"], &elf(&[(1, 4, 0, &load)])).fails(1, "without an executable load segment");
    call(&["list"], &elf(&[])).fails(1, "objcopy -O binary");
}

#[test]
fn a_failed_read_or_write_is_no_end() {
    call(&["list", "/no/such/file"], b"").fails(1, "/no/such/file: ");
    let directory = env!("CARGO_MANIFEST_DIR");
    for name in ["list", "run", "why", "trace"] {
        call(&[name, directory], b"").fails(1, "read: ");
    }
    for name in ["list", "run", "why", "trace", "word", "text"] {
        let output = command(&[name]).stdin(File::open(directory).unwrap()).output().unwrap();
        assert!(output.stdout.is_empty() && output.status.code() == Some(1), "{name}");
        assert!(String::from_utf8(output.stderr).unwrap().contains("read: "), "{name}");
    }
    for words in [&["list", &stored("crates/list/stdin")][..], &["--help"], &["word", "f9400420"]] {
        let full = File::options().write(true).open("/dev/full").unwrap();
        let output = command(words).stdin(Stdio::null()).stdout(full).output().unwrap();
        assert_eq!(output.status.code(), Some(1), "{words:?}");
        assert!(String::from_utf8(output.stderr).unwrap().starts_with("milestarling: write: "), "{words:?}");
    }
}

#[test]
fn words_and_texts() {
    let line = "f9400420\tldr x0, [x1, #8]\t0\n";
    assert_eq!(call(&["word", "f9400420", "0xF9400420"], b""), Ended::well(&line.repeat(2)));
    assert_eq!(
        call(&["word"], b"f9400420 f9400420\n\n91000000"),
        Ended::well(&format!("{line}{line}91000000\t-\t2\tdoesn't touch memory\n"))
    );
    let vectors = "3dc00420\tldr q0, [x1, #16]\t0\nad400421\tldp q1, q1, [x1]\t4\n7dc00020\t-\t3\n";
    assert_eq!(call(&["word", "3dc00420", "ad400421", "7dc00020"], b""), Ended::well(vectors));
    // ld1 {v0.16b}, [x0]; dc zva, x5; an undefined and an unpredictable load
    let told = "4c407000\t-\t2\ttouches memory\nd50b7425\t-\t2\ttouches memory\n\
                b8c00020\t-\t3\nf8408421\tldr x1, [x1], #8\t4\n";
    assert_eq!(call(&["word", "4c407000", "d50b7425", "b8c00020", "f8408421"], b""), Ended::well(told));
    assert_eq!(call(&["text", "ldr x0, [x1, #8]"], b""), Ended::well(line));
    assert_eq!(call(&["text"], b"ldr x0, [x1, #8]\nldr x0, [x1, #8]"), Ended::well(&line.repeat(2)));

    // What is wrong is said, and what comes behind it is still done.
    let ended = call(&["word", "f94004200", "", "xyz", "f9400420"], b"");
    assert_eq!((ended.wrote.as_str(), ended.said.lines().count(), ended.status), (line, 3, Some(1)));
    let ended = call(&["text"], b"ldr x0, [x1, #8]\r\nldr x0, [x1, #8]\n\n");
    assert_eq!((ended.wrote.as_str(), ended.said.lines().count(), ended.status), (line, 2, Some(1)));
    assert!(ended.said.starts_with("milestarling: line 1: `ldr x0, [x1, #8]\r`: refused (9): "), "{ended:?}");
    call(&["text"], b"\xff\n").fails(1, "isn't UTF-8");
}

const CASE: &str = "\
# A plugin that looks up a letter of a password.
origin 0x1000
readonly 8
tainted letters sesame42
zeros 4
bytes 01 02 fe ff
x0 4096
x1 0x1008
tainted x3 7
tainted x4.1 0x5607
tainted x6.0-1,4,6-7 0x1112131415161718
sp 0x1010
pc 0x8000

ldrb w2, [x0]
  strb w2, [x1]
word 386268a4
";

#[test]
fn runs_a_case() {
    let ended = call(&["run"], CASE.as_bytes());
    let expected = "\
step 1: load of 1 at 0x1000, by 39400002, `ldrb w2, [x0]`, taints x2 byte 0
step 2: store of 1 at 0x1008, by 39000022, `strb w2, [x1]`, taints 0x1008
refused (5): the address would come from a secret value, by 386268a4, `ldrb w4, [x5, x2]`, after 2 steps: x2 byte 0 is tainted
x0 0x1000
x1 0x1008
x2 0x00000000000000**
x3 0x****************
x4 0x000000000000**07
x6 0x****13**1516****
sp 0x1010
pc 0x8008
0x1000: ** ** ** ** ** ** ** ** ** 00 00 00 01 02 fe ff
";
    assert_eq!(ended, Ended { wrote: expected.into(), said: String::new(), status: Some(1) });

    let path = made("case", CASE.replace("word 386268a4", "").as_bytes());
    let ended = call(&["run", "--secrets", path.to_str().unwrap()], b"");
    let registers = "\
x1 0x1008
tainted x2.0 0x73
tainted x3 0x7
tainted x4.1 0x5607
tainted x6.0-1,4,6-7 0x1112131415161718
sp 0x1010
";
    assert!(ended.wrote.contains("\ndone, after 2 steps\n") && ended.wrote.contains(registers), "{ended:?}");
    assert!(ended.wrote.ends_with("0x1000: 73* 65* 73* 61* 6d* 65* 34* 32* 73* 00 00 00 01 02 fe ff\n"), "{ended:?}");
    assert_eq!(ended.status, Some(0));
    assert_eq!(call(&["run"], b""), Ended::well("done, after 0 steps\npc 0x0\n"));
    assert_eq!(call(&["run"], b"prfm pldl1keep, [x1]\n").status, Some(0));
}

/// Sixteen bytes are copied, with what was tainted of them, and shown where they are.
#[test]
fn runs_a_copy_by_a_vector_register() {
    let case = "\
origin 0x1000
bytes 00 01
tainted letters sesame42
zeros 6
zeros 16
x1 0x1000
q2 0xffffffffffffffffffffffffffffffff
tainted q30 340282366920938463463374607431768211455
tainted q31.0,7-8,15 0x10f0e0d0c0b0a090807060504030201
ldr q0, [x1]
str q0, [x1, #16]
ldr b2, [x1]
ldr h3, [x1, #2]
";
    let expected = "\
step 1: load of 16 at 0x1000, by 3dc00020, `ldr q0, [x1]`, taints q0 bytes 2 to 9
step 2: store of 16 at 0x1010, by 3d800420, `str q0, [x1, #16]`, taints 0x1012 to 0x1019
step 3: load of 1 at 0x1000, by 3d400022, `ldr b2, [x1]`
step 4: load of 2 at 0x1002, by 7d400423, `ldr h3, [x1, #2]`, taints q3 bytes 0 to 1
done, after 4 steps
x1 0x1000
q0 0x000000000000****************0100
q3 0x0000000000000000000000000000****
q30 0x********************************
q31 0x**0f0e0d0c0b0a****070605040302**
pc 0x10
0x1000: 00 01 ** ** ** ** ** ** ** ** 00 00 00 00 00 00
0x1010: 00 01 ** ** ** ** ** ** ** ** 00 00 00 00 00 00
";
    assert_eq!(call(&["run"], case.as_bytes()), Ended::well(expected));
    let ended = call(&["run", "--secrets"], case.as_bytes());
    let registers = "\
x1 0x1000
tainted q0.2-9 0x3234656d617365730100
tainted q3.0-1 0x6573
tainted q30 0xffffffffffffffffffffffffffffffff
tainted q31.0,7-8,15 0x10f0e0d0c0b0a090807060504030201
pc 0x10
";
    assert!(ended.wrote.contains(registers), "{ended:?}");
}

/// A spin lock's two halves: taken, and lost with the monitor of another place.
#[test]
fn runs_a_lock() {
    let case = "origin 0x1000\nzeros 8\nx0 0x1000\nx2 1\nmonitor 0x1004 4\nstxr w3, w2, [x0]\nldaxr w1, [x0]\n";
    let failed = "\
step 1: store of 4 at 0x1000, which failed, by 88037c02, `stxr w3, w2, [x0]`
step 2: load of 4 at 0x1000, by 885ffc01, `ldaxr w1, [x0]`
done, after 2 steps
x0 0x1000
x2 0x1
x3 0x1
pc 0x8
monitor 0x1000 4
0x1000: 00 00 00 00 00 00 00 00
";
    assert_eq!(call(&["run"], case.as_bytes()), Ended::well(failed));
    let taken = "\
step 1: store of 4 at 0x1000, by 88037c02, `stxr w3, w2, [x0]`
done, after 1 steps
x0 0x1000
x2 0x1
pc 0x4
0x1000: 01 00 00 00 00 00 00 00
";
    let case = case.replace("0x1004", "0x1000").replace("ldaxr w1, [x0]\n", "");
    assert_eq!(call(&["run"], case.as_bytes()), Ended::well(taken));
}

/// The README shows the beginning of what the example writes, and why a word of it was refused.
#[test]
fn runs_the_example() {
    let readme = fs::read_to_string(stored("README.md")).unwrap();
    for (name, lines, status) in [("run", 6, 1), ("why", 3, 0)] {
        let ended = call(&[name, &stored("examples/login.case")], b"");
        let shown: String = ended.wrote.lines().take(lines).map(|line| format!("    {line}\n")).collect();
        assert!(shown.lines().count() == lines && readme.contains(&shown), "{shown}");
        assert_eq!(ended.status, Some(status));
    }
}

const PLUGINS: &str = "\
turn 1, hall:
step 1: load of 8 at 0x1000, by f9400002, `ldr x2, [x0]`
step 2: store of 8 at 0x1018, by f9000422, `str x2, [x1, #8]`
step 3: load of 4 at 0x1010, by 885ffc23, `ldaxr w3, [x1]`
done, after 3 steps
turn 2, login:
step 1: load of 1 at 0x1020, by 39400022, `ldrb w2, [x1]`, taints x2 byte 0
step 2: store of 1 at 0x1028, by 39002022, `strb w2, [x1, #8]`, taints 0x1028
refused (8): the store touches read-only memory, at address 0x1000, by f9000002, `str x2, [x0]`, after 2 steps
turn 3, hall:
step 1: store of 4 at 0x1010, by 88047c20, `stxr w4, w0, [x1]`
refused (12): the access is neither in the plugin's own range nor, for a load, in the shared one, at address 0x1020, \
by 39404025, `ldrb w5, [x1, #16]`, after 1 step
turn 4, hall:
step 1: load of 8 at 0x1018, by f9400426, `ldr x6, [x1, #8]`
done, after 1 steps
turn 5, login:
refused (12): the access is neither in the plugin's own range nor, for a load, in the shared one, at address 0x100c, \
by f840c007, `ldur x7, [x0, #12]`
plugin hall:
x0 0x1000
x1 0x1010
x2 0x34203a7374616573
x6 0x34203a7374616573
pc 0x14
plugin login:
x0 0x1000
x1 0x1020
x2 0x00000000000000**
pc 0x8
0x1000: 73 65 61 74 73 3a 20 34 32 2c 20 72 6f 77 73 2e
0x1010: 00 10 00 00 00 00 00 00 73 65 61 74 73 3a 20 34
0x1020: ** ** ** ** ** ** ** ** ** 00 00 00 00 00 00 00
";

/// Two plugins and their turns, and what a case of them can't be asked.
#[test]
fn runs_two_plugins() {
    let name = stored("examples/plugins.case");
    let ended = call(&["run", &name], b"");
    assert_eq!(ended, Ended { wrote: PLUGINS.into(), said: String::new(), status: Some(1) });
    let ended = call(&["run", "--secrets", &name], b"");
    assert!(ended.wrote.contains("\ntainted x2.0 0x73\npc 0x8\n"), "{ended:?}");
    assert!(ended.wrote.ends_with("0x1020: 73* 65* 73* 61* 6d* 65* 34* 32* 73* 00 00 00 00 00 00 00\n"), "{ended:?}");
    for words in [&["why", &name][..], &["why", &name, "x2"], &["trace", &name]] {
        call(words, b"")
            .fails(1, "plugins.case: a case of two plugins: why a byte is tainted is told of a plugin alone");
    }

    let two = "shared 0 4\nplugin a 4 4\nplugin b 8 4\n";
    assert_eq!(call(&["run"], format!("zeros 12\n{two}").as_bytes()).status, Some(0));
    let shown = "turn 1, b:\nstep 1: load of 4 at 0x8, by b9400020, `ldr w0, [x1]`\ndone, after 1 steps\n\
                 plugin a:\nx1 0x4\npc 0x0\nplugin b:\nx1 0x8\npc 0x4\n0x0: 00 00 00 00 00 00 00 00 00 00 00 00\n";
    let case = "plugin a 4 4\nx1 4\nplugin b 8 4\nx1 8\nturn b\nldr w0, [x1]\nshared 0 4\nzeros 12\n";
    assert_eq!(call(&["run"], case.as_bytes()), Ended::well(shown));
    // Ranges that don't go together are refused in every turn, and an empty turn too.
    let ended = call(&["run"], format!("zeros 11\n{two}turn a\nprfm pldl1keep, [x1]\nturn b\n").as_bytes());
    let lines: Vec<&str> = ended.wrote.lines().filter(|line| line.starts_with("refused (1): ")).collect();
    assert_eq!((lines.len(), ended.status), (2, Some(1)), "{ended:?}");
    let ended = call(&["run"], format!("zeros 12\n{two}turn b\ntaint\n").as_bytes());
    ended.fails(1, "standard input: line 6: refused (9)");
}

#[test]
fn a_wrong_case_of_plugins_is_named_by_its_line() {
    for (case, line, said) in [
        ("shared 0", 1, "is no number"),
        ("shared 0 1 2", 1, "is no number"),
        ("shared 0 1", 1, "a case of plugins has two of them"),
        ("zeros 8\nplugin a 0 1\nshared 0 1", 2, "a case of plugins has two of them"),
        ("plugin", 1, "a plugin has a name"),
        ("plugin a", 1, "is no number"),
        ("plugin a 0", 1, "is no number"),
        ("plugin a 0 1\nplugin a 1 1", 2, "`a` is named already"),
        ("plugin a 0 1\nplugin b 1 1\nplugin c 2 1", 3, "a case has two plugins"),
        ("plugin a 0 1\nplugin b 1 1", 1, "plugins without `shared`"),
        ("turn a", 1, "`a` is no plugin's name"),
        ("plugin a 0 1\nturn b", 2, "`b` is no plugin's name"),
        ("plugin a 0 1\nturn", 2, "`` is no plugin's name"),
        ("plugin a 0 1\nturn a\nplugin b 1 1", 3, "before the first turn"),
        ("plugin a 0 1\nturn a\nx0 1", 3, "before the first turn"),
        ("plugin a 0 1\nturn a\npc 4", 3, "before the first turn"),
        ("plugin a 0 1\nturn a\nmonitor 0 4", 3, "before the first turn"),
        ("plugin a 0 1\nturn a\ntainted q0 1", 3, "before the first turn"),
        ("plugin a 0 1\nword f9400420", 2, "a word of no turn"),
        ("shared 0 1\nldr x0, [x1]", 2, "a word of no turn"),
        ("shared 0 1\nx0 5", 2, "a register of no plugin"),
        ("x0 5\nplugin a 0 1", 2, "is no plugin's"),
        ("ldr x0, [x1]\nshared 0 1", 2, "is no plugin's"),
        ("readonly 4\nzeros 8\nshared 0 4", 3, "`readonly` in a case of plugins"),
        ("plugin a 0 1\nreadonly 4", 2, "`readonly` in a case of plugins"),
    ] {
        let ended = call(&["run"], case.as_bytes());
        ended.fails(1, said);
        assert!(ended.said.contains(&format!("standard input: line {line}: ")), "{case}: {ended:?}");
    }
}

/// What the indented blocks of a section hold, one behind the other, without their indent.
fn blocks(document: &str, heading: &str) -> Vec<Vec<String>> {
    let section = document.split("\n## ").find(|section| section.starts_with(heading)).unwrap();
    let mut blocks = vec![Vec::new()];
    for line in section.lines() {
        match line.strip_prefix("    ") {
            Some(line) => blocks.last_mut().unwrap().push(line.to_string()),
            None => blocks.push(Vec::new()),
        }
    }
    blocks.into_iter().filter(|block| !block.is_empty()).collect()
}

/// The commands of the worked answer are run as they are printed, but for those that need a package, and what stands behind the
/// last of a block is what it writes; behind `...` there is more.
#[test]
fn the_worked_answer_is_true() {
    let room = Path::new(env!("CARGO_TARGET_TMPDIR")).join("worked");
    fs::remove_dir_all(&room).ok();
    fs::create_dir(&room).unwrap();
    std::os::unix::fs::symlink(stored("examples"), room.join("examples")).unwrap();
    let directory = Path::new(env!("CARGO_BIN_EXE_milestarling")).parent().unwrap();
    let path = format!("{}:{}", directory.display(), std::env::var("PATH").unwrap());
    let blocks = blocks(&fs::read_to_string(stored("docs/ANSWERS.md")).unwrap(), "A worked answer 5\n");
    let (mut run, mut wrote) = (0, String::new());
    for block in blocks.iter().filter(|block| !block[0].starts_with("apt-get ")) {
        if block[0].starts_with("milestarling ") || block[0].contains(" | milestarling ") {
            for line in block {
                let output =
                    Command::new("sh").args(["-c", line]).current_dir(&room).env("PATH", &path).output().unwrap();
                assert!(output.stderr.is_empty(), "{line}: {output:?}");
                wrote = String::from_utf8(output.stdout).unwrap();
                run += 1;
            }
        } else if !wrote.is_empty() {
            match block.split_last() {
                Some((dots, shown)) if dots == "..." => {
                    assert!(wrote.starts_with(&(shown.join("\n") + "\n")), "{wrote}")
                }
                _ => assert_eq!(wrote, block.join("\n") + "\n"),
            }
            wrote.clear();
        }
    }
    assert!(run == 6 && wrote.is_empty(), "{run}");

    // The case has the words of the file that was compiled, but for its return.
    let traced = call(&["trace", &stored("examples/plugin/copy_by_kind.case")], b"").wrote;
    let lines = traced.lines().filter(|line| line.starts_with("step ") || line.starts_with("word "));
    let words: Vec<String> = lines.map(|line| line.split(' ').nth(1).unwrap().to_string()).collect();
    let image = fs::read(stored("examples/plugin/copy_by_kind.bin")).unwrap();
    let compiled = milestarling::words(&image, 0).map(|(_, word, _)| format!("{word:08x}"));
    assert_eq!(words, compiled.take(4).collect::<Vec<_>>());
}

/// Pairs, sign copies, a store-exclusive that fails, and a register that is written back.
const COPIES: &str = "\
origin 0x1000
tainted letters sesame42
zeros 24
x0 0x1000
x1 0x1010
tainted x5 0x11
tainted x9.0-3,7 0x2200000000
ldp w2, w3, [x0]
stp x2, x9, [x1]
ldrsh w4, [x0, #2]
stxr w5, w3, [x1]
ldur q31, [x0, #8]
ldr x6, [x1], #8
prfm pldl1keep, [x5]
";

#[test]
fn shows_what_each_step_taints() {
    let steps = "\
step 1: load of 8 at 0x1000, by 29400c02, `ldp w2, w3, [x0]`, taints x2 bytes 0 to 3 and x3 bytes 0 to 3
step 2: store of 16 at 0x1010, by a9002422, `stp x2, x9, [x1]`, taints 0x1010 to 0x1013, 0x1018 to 0x101b and 0x101f
step 3: load of 2 at 0x1002, by 79c00404, `ldrsh w4, [x0, #2]`, taints x4 bytes 0 to 3
step 4: store of 4 at 0x1010, which failed, by 88057c23, `stxr w5, w3, [x1]`
step 5: load of 16 at 0x1008, by 3cc0801f, `ldur q31, [x0, #8]`, taints q31 bytes 8 to 11
step 6: load of 8 at 0x1010, by f8408426, `ldr x6, [x1], #8`, taints x6 bytes 0 to 3
step 7: prefetch, by f98000a0, `prfm pldl1keep, [x5]`
done, after 7 steps
";
    let ended = call(&["run"], COPIES.as_bytes());
    assert!(ended.wrote.starts_with(steps) && ended.status == Some(0), "{ended:?}");
}

/// Each register and byte to blame for an answer 5, the base's before the index's.
#[test]
fn blames_the_bytes_of_an_address() {
    let blamed = |taints: &str, line: &str| {
        let ended = call(&["run"], format!("zeros 16\n{taints}{line}\n").as_bytes());
        let said = ended.wrote.lines().next().unwrap().to_string();
        assert!(said.starts_with("refused (5): ") && ended.status == Some(1), "{ended:?}");
        said.rsplit_once("`: ").unwrap().1.to_string()
    };
    let taints = "tainted x1.0-1,4,6-7 0\ntainted x2.3-4 0\ntainted sp 0\n";
    assert_eq!(blamed(taints, "ldr x0, [x1]"), "x1 bytes 0 to 1, x1 byte 4 and x1 bytes 6 to 7 are tainted");
    assert_eq!(blamed(taints, "ldr x0, [x3, x2]"), "x2 bytes 3 to 4 are tainted");
    assert_eq!(blamed(taints, "ldr x0, [x3, w2, sxtw]"), "x2 byte 3 is tainted");
    assert_eq!(blamed(taints, "strb w0, [sp, x2, lsl #0]"), "sp bytes 0 to 7 and x2 bytes 3 to 4 are tainted");
    assert_eq!(blamed(taints, "ldp q0, q1, [sp], #32"), "sp bytes 0 to 7 are tainted");
    // Bytes that aren't used don't count.
    let ended = call(&["run"], b"zeros 16\ntainted x2.4 0\nldr x0, [x3, w2, sxtw]\n");
    assert_eq!(ended.status, Some(0));
}

#[test]
fn tells_why() {
    let path = made("copies", COPIES.as_bytes());
    let path = path.to_str().unwrap();
    let traced = call(&["trace", path], b"");
    let trace = made("copies.trace", traced.wrote.as_bytes());
    let rows: &[(&[&str], &str)] = &[
        (&["x2"], "x2 bytes 0 to 3: step 1, ldp w2, w3, [x0], from 0x1000 to 0x1003\n0x1000 to 0x1003: tainted at the start\n"),
        (&["x3.1"], "x3 byte 1: step 1, ldp w2, w3, [x0], from 0x1005\n0x1005: tainted at the start\n"),
        (&["x3.4"], "x3 byte 4: not tainted\n"),
        // A sign copy has the way of the top byte loaded.
        (
            &["x4"],
            "\
x4 bytes 0 to 1: step 3, ldrsh w4, [x0, #2], from 0x1002 to 0x1003
0x1002 to 0x1003: tainted at the start

x4 bytes 2 to 3: step 3, ldrsh w4, [x0, #2], from 0x1003
0x1003: tainted at the start
",
        ),
        // The status is no secret; before the store it was one.
        (&["x5"], "x5: not tainted\n"),
        (&["x5", "--at", "3"], "x5 bytes 0 to 7: tainted at the start\n"),
        (&["x9"], "x9 bytes 0 to 3: tainted at the start\n\nx9 byte 7: tainted at the start\n"),
        // The store-exclusive has failed, and the byte is the one of step 2.
        (
            &["x6.0"],
            "\
x6 byte 0: step 6, ldr x6, [x1], #8, from 0x1010
0x1010: step 2, stp x2, x9, [x1], from x2 byte 0
x2 byte 0: step 1, ldp w2, w3, [x0], from 0x1000
0x1000: tainted at the start
",
        ),
        (&["0x101f"], "0x101f: step 2, stp x2, x9, [x1], from x9 byte 7\nx9 byte 7: tainted at the start\n"),
        (&["4127"], "0x101f: step 2, stp x2, x9, [x1], from x9 byte 7\nx9 byte 7: tainted at the start\n"),
        (&["0x101f", "--at", "1"], "0x101f: not tainted\n"),
        (&["0x1000", "--at", "0"], "0x1000: tainted at the start\n"),
        (&["sp"], "sp: not tainted\n"),
        (&["q31.7"], "q31 byte 7: not tainted\n"),
        (
            &["v31"],
            "\
q31 bytes 8 to 11: step 5, ldur q31, [x0, #8], from 0x1010 to 0x1013
0x1010 to 0x1013: step 2, stp x2, x9, [x1], from x2 bytes 0 to 3
x2 bytes 0 to 3: step 1, ldp w2, w3, [x0], from 0x1000 to 0x1003
0x1000 to 0x1003: tainted at the start
",
        ),
    ];
    for (asked, expected) in rows {
        for file in [path, trace.to_str().unwrap()] {
            assert_eq!(call(&[&["why", file], *asked].concat(), b""), Ended::well(expected), "{asked:?}");
        }
    }
    assert_eq!(call(&["why", "-", "sp"], COPIES.as_bytes()), Ended::well("sp: not tainted\n"));
    call(&["why", path], b"").fails(2, "no word was refused for a tainted address: name a place");
}

/// Without a place it is the refused word's address that is asked about.
#[test]
fn tells_why_a_word_was_refused() {
    let told = "\
step 3, ldrb w4, [x5, x2], at 0x8008: refused for x2 byte 0
x2 byte 0: step 1, ldrb w2, [x0], from 0x1000
0x1000: tainted at the start
";
    assert_eq!(call(&["why"], CASE.as_bytes()), Ended::well(told));
    let trace = call(&["trace"], CASE.as_bytes());
    assert_eq!(call(&["why"], trace.wrote.as_bytes()), Ended::well(told));
    let case = "zeros 16\ntainted x1.1,6-7 0\nldr x0, [x1]\n";
    let told = "\
step 1, ldr x0, [x1], at 0x0: refused for x1 byte 1 and x1 bytes 6 to 7
x1 byte 1: tainted at the start

x1 bytes 6 to 7: tainted at the start
";
    assert_eq!(call(&["why"], case.as_bytes()), Ended::well(told));
    // Refused for something else, though its base is tainted: a window, PC, or the word itself.
    for other in ["pc 2", "readonly 17", "word 0", "ldr x1, [x1], #8"] {
        let ended = call(&["why"], case.replace("zeros 16", &format!("zeros 16\n{other}")).as_bytes());
        assert!(ended.wrote.is_empty() && ended.status != Some(0), "{other}: {ended:?}");
    }
}

#[test]
fn writes_a_trace() {
    let expected = "\
milestarling trace 1
origin 0x1000
readonly 0
length 32
pc 0x0
tainted x5
tainted x9.0-3,7
tainted 0x1000 8
step 29400c02 8 0x1000 0
step a9002422 80 0x1010 0
step 79c00404 2 0x1002 0
step 88057c23 68 0x1010 1
word 00000000
word f8408426
word f98000a0
";
    let case = COPIES.replace("ldur q31, [x0, #8]", "word 0");
    assert_eq!(call(&["trace"], case.as_bytes()), Ended::well(expected));
    // A trace is written as it was, and a value changes nothing in it.
    assert_eq!(call(&["trace"], expected.as_bytes()), Ended::well(expected));
    let other = case.replace("sesame42", "open1234").replace("0x11", "0x1122334455667788").replace("0x22", "0x33");
    assert_eq!(call(&["trace"], other.as_bytes()), Ended::well(expected));
    call(&["run"], expected.as_bytes()).fails(1, "has no values to run with");
    assert_eq!(call(&["trace"], b""), Ended::well("milestarling trace 1\norigin 0x0\nreadonly 0\nlength 0\npc 0x0\n"));
}

#[test]
fn a_wrong_question_is_named() {
    let case = made("asked", CASE.as_bytes());
    let case = case.to_str().unwrap();
    for place in ["x31", "w3", "q32", "v32", "qq1", "vq1", "X3", "", "x3.", "0x", "-1", "0x10000000000000000", "pc"] {
        let ended = call(&["why", case, place], b"");
        assert!(ended.said.contains("is no place") || ended.said.contains("has bytes 0 to 7"), "{place}: {ended:?}");
        assert_eq!((ended.status, ended.wrote.as_str()), (Some(2), ""), "{place}");
    }
    for (place, said) in
        [("x3.8", "x3 has bytes 0 to 7"), ("sp.+1", "sp has bytes 0 to 7"), ("v5.16", "has bytes 0 to 15")]
    {
        call(&["why", case, place], b"").fails(2, said);
    }
    call(&["why", case, "x2", "x3"], b"").fails(2, "one place at a time");
    call(&["why", case, "x2", "--at", "two"], b"").fails(2, "is no number");
    call(&["why", case, "--at", "1"], b"").fails(2, "--at needs a place");
    for at in ["3", "18446744073709551615"] {
        call(&["why", case, "x2", "--at", at], b"").fails(1, "refused (18)");
    }
    call(&["why", case, "0x0fff"], b"").fails(1, "refused (7): ");
    call(&["why", case, "0x1010"], b"").fails(1, "at address 0x1010");
    call(&["why", "/no/such/file", "x2"], b"").fails(1, "/no/such/file: ");
    call(&["why", "-", "x2"], b"readonly 1\n").fails(1, "refused (1): ");
}

#[test]
fn a_damaged_trace_is_refused_or_named_by_its_line() {
    let trace = call(&["trace"], CASE.as_bytes()).wrote;
    for (right, wrong) in [
        ("step 39000022 65 0x1008 0", "step 39000022 65 0x1007 0"),
        ("step 39000022 65 0x1008 0", "step 39000022 66 0x1008 0"),
        ("step 39000022 65 0x1008 0", "step 39000022 65 0x1008 2"),
        ("step 39000022 65 0x1008 0", "step 91000000 65 0x1008 0"),
    ] {
        assert!(trace.contains(right), "{trace}");
        let ended = call(&["why", "-", "x2"], trace.replace(right, wrong).as_bytes());
        ended.fails(1, "standard input: refused (17): ");
    }
    let text = trace.replace("length 16", "length 1x");
    call(&["why"], text.as_bytes()).fails(1, "standard input: line 4: `1x` is no number");
    call(&["trace"], text.as_bytes()).fails(1, "standard input: line 4: `1x` is no number");
    call(&["why"], b"milestarling trace 1\n\nstep 1\n").fails(1, "standard input: line 3: a step has");
    call(&["why"], b"\xff\n").fails(1, "isn't UTF-8");
}

#[test]
fn a_wrong_case_is_named_by_its_line() {
    let wrong = [
        ("origin", "is no number"),
        ("orign 1", "refused (9)"),
        ("x31 1", "refused (9)"),
        ("x0 1 2", "is no number"),
        ("bytes 1", "no byte of two hexadecimal digits"),
        ("bytes +1", "no byte of two hexadecimal digits"),
        ("tainted pc 4", "tainted are"),
        ("tainted monitor 1 4", "tainted are"),
        ("monitor 1", "is no number"),
        ("monitor 1 4 8", "is no number"),
        ("tainted", "tainted are"),
        ("tainted x2.8 5", "`8` is neither a byte of a register"),
        ("tainted x2. 5", "`` is neither a byte of a register"),
        ("tainted x2.3-1 5", "`3-1` is neither a byte of a register"),
        ("tainted x2.0-3, 5", "`` is neither a byte of a register"),
        ("tainted x2.+1 5", "`+1` is neither a byte of a register"),
        ("tainted x2.1 ", "is no number"),
        ("tainted x31.1 5", "tainted are"),
        ("x2.1 5", "refused (9)"),
        ("x0 0x10000000000000000", "is no number of 64 bits"),
        ("q32 1", "refused (9)"),
        ("v0 1", "refused (9)"),
        ("q0 0x100000000000000000000000000000000", "is no number of 128 bits"),
        ("q0 +1", "is no number of 128 bits"),
        ("tainted q32 1", "tainted are"),
        ("tainted q2.16 5", "`16` is neither a byte of a register, 0 to 15"),
        ("tainted q2.9-8 5", "`9-8` is neither a byte of a register, 0 to 15"),
        ("zeros 1073741825", "more than 1073741824 bytes"),
        ("zeros 18446744073709551615", "more than 1073741824 bytes"),
        ("word 123456789", "one to eight hexadecimal digits"),
        ("ldr x0, [x1, #9]", "refused (9)"),
    ];
    for (line, said) in wrong {
        let ended = call(&["run"], format!("# first\n{line}\n").as_bytes());
        ended.fails(1, said);
        assert!(ended.said.contains("standard input: line 2: "), "{ended:?}");
    }
}

const IMAGE: &[u8] = b":020000040001F9\n:04000200DEADBEEFC2\n:01000900aa4c\n:00000001FF\n";

#[test]
fn imports_an_image() {
    let path = made("plugin.hex", IMAGE);
    let path = path.to_str().unwrap();
    let ranges = "0x10002 to 0x10005, 4 bytes\n0x10009, 1 byte\n";
    for (file, input) in [(path, &b""[..]), ("-", IMAGE)] {
        let ended = call(&["import", file, "--at", "0x10000", "--size", "16"], input);
        assert_eq!(ended, Ended::well(ranges));
    }
    let out = made("plugin.bin", b"older");
    let name = out.to_str().unwrap();
    assert_eq!(call(&["import", path, "--at", "65536", "--size", "10", "--out", name], b""), Ended::well(""));
    assert_eq!(fs::read(&out).unwrap(), [0, 0, 0xde, 0xad, 0xbe, 0xef, 0, 0, 0, 0xaa]);
    let end = call(&["import", "--at", "0xffffffffffffffff", "--size", "1"], b":00000001FF\n");
    assert_eq!(end, Ended::well(""));
}

#[test]
fn a_refused_image_is_named_by_its_line() {
    let import = |text: &[u8]| call(&["import", "--at", "0x10000", "--size", "9"], text);
    import(IMAGE).fails(1, "standard input: refused (7), line 3: a byte of the line isn't inside the memory window\n");
    import(&IMAGE[..16]).fails(1, "refused (13), line 2: ");
    import(b":00000001FE\n").fails(1, "refused (14), line 1: the checksum of the line is wrong\n");
    // What is said of objcopy's texts is how to convert them.
    for (text, why) in [
        (&b":020000021000EC\n"[..], "the type of the line isn't 00, 01 or 04; objcopy writes 02 below 0x100000, "),
        (b":00000001FF\r\n", "or the end is missing; objcopy ends lines in a carriage return. "),
    ] {
        import(text).fails(1, why);
        import(text).fails(1, " `srec_cat FILE.hex -intel -o TAKEN.hex -intel -disable=exec-start-address` ");
        import(text).fails(
            1,
            "by --change-addresses, and drop the carriage returns by `tr -d '\\r'` and the lines of types 03 and 05\n",
        );
    }
    call(&["import", "--at", "0xffffffffffffffff", "--size", "2"], IMAGE).fails(1, "refused (1): the memory window");
    call(&["import", "--at", "0"], IMAGE).fails(2, "say --size");
    call(&["import", "--size", "1"], IMAGE).fails(2, "say --at");
    call(&["import", "--at", "0", "--size", "1073741825"], IMAGE).fails(2, "more than 1073741824 bytes");
    call(&["import", "nowhere.hex", "--at", "0", "--size", "1"], b"").fails(1, "nowhere.hex: ");
}

#[test]
fn a_case_takes_an_image() {
    let path = made("case.hex", IMAGE);
    let case =
        |size| format!("origin 0x10000\ntainted zeros {size}\nimage {}\nx1 0x10002\nldr w0, [x1]\n", path.display());
    let ended = call(&["run"], case(16).as_bytes());
    let memory = "0x10000: ** ** de ad be ef ** ** ** aa ** ** ** ** ** **\n";
    assert!(ended.wrote.contains("x0 0xefbeadde\n") && ended.wrote.ends_with(memory), "{ended:?}");
    call(&["run"], case(9).as_bytes()).fails(1, "standard input: line 3: ");
    call(&["run"], case(9).as_bytes()).fails(1, "case.hex: refused (7), line 3: ");
    call(&["run"], b"image nowhere.hex\n").fails(1, "line 1: nowhere.hex: ");
}

#[test]
fn says_how_it_is_called() {
    let help = call(&["--help"], b"");
    assert!(help.status == Some(0) && help.said.is_empty());
    for name in ["list", "word", "text", "run", "why", "trace"] {
        assert!(help.wrote.contains(&format!("milestarling {name} [")), "{name}");
        assert_eq!(call(&[name, "--help"], b""), help);
    }
    let widest = help.wrote.lines().map(|line| line.chars().count()).max().unwrap();
    assert!(widest <= 90, "{widest}");
    assert_eq!(call(&["--version"], b""), Ended::well(concat!("milestarling ", env!("CARGO_PKG_VERSION"), "\n")));
    call(&[], b"").fails(2, "list, rescue, word, text, run, import, why or trace");
    call(&["lists"], b"").fails(2, "`lists` is no command");
    call(&["list", "a", "b"], b"").fails(2, "one file at a time");
    call(&["list", "--as", "b"], b"").fails(2, "one file at a time");
    for name in ["run", "why", "trace"] {
        call(&[name, "--secret"], b"").fails(2, "is no option");
    }
    call(&["trace", "a", "b"], b"").fails(2, "one file at a time");
}
