//! Times the texts of words beside the reference, LLVM and Capstone, on the same words, in one run. Runs and steps are timed by
//! `../bench/steps.c`.
//!
//!     make -C ../bench && cargo run --release --example bench
//!
//! The programs of `../bench` are left out where they aren't built. All take turns, so that a busy moment of the
//! machine harms no one of them alone, and the best pass of each counts.

#[path = "../tests/reference/mod.rs"]
mod reference;
#[path = "../tests/support/mod.rs"]
mod support;

use milestarling::{list, raw, LINE_MAX};
use std::collections::BTreeMap;
use std::hint::black_box;
use std::path::{Path, PathBuf};
use std::process::Command;
use std::time::{Duration, Instant};
use std::{env, fs};
use support::{allocated_word, Random};

const ROUNDS: usize = 7;
/// A measurement ends with the first pass after so long.
const TIME: Duration = Duration::from_millis(100);

/// Words whose texts are written.
const TEXTS: usize = 1 << 16;

/// The best rate of each, in millions a second.
#[derive(Default)]
struct Rates(BTreeMap<String, f64>);

impl Rates {
    fn add(&mut self, name: &str, done: f64, seconds: f64) {
        let best = self.0.entry(name.to_string()).or_default();
        *best = best.max(done / seconds / 1e6);
    }

    /// Does passes of so many until the time is over. The best pass counts, as one that nothing else broke into.
    fn measure(&mut self, name: &str, each: usize, mut pass: impl FnMut()) {
        pass();
        let begin = Instant::now();
        while begin.elapsed() < TIME {
            let start = Instant::now();
            pass();
            self.add(name, each as f64, start.elapsed().as_secs_f64());
        }
    }

    /// A table of which the first row is ours.
    fn show(&self, title: &str, unit: &str, rows: &[(String, &str)]) {
        println!("\n{title:<48} {unit:>12} {:>14}", "ours / this");
        for (name, shown) in rows {
            match self.0.get(name) {
                Some(rate) => println!("    {shown:<44} {rate:>12.2} {:>14.2}", self.0[&rows[0].0] / rate),
                None => println!("    {shown:<44} {:>12} {:>14}", "not built", "-"),
            }
        }
    }
}

/// Runs a program of `../bench`, and returns the numbers that it prints for each of its measurements.
fn peer(rates: &mut Rates, name: &str, directory: &Path) -> BTreeMap<String, u64> {
    let folder = env::var_os("MILESTARLING_PEERS")
        .map_or_else(|| Path::new(env!("CARGO_MANIFEST_DIR")).join("../bench/build"), PathBuf::from);
    let program = folder.join(name);
    let mut numbers = BTreeMap::new();
    if !program.is_file() {
        return numbers;
    }
    let output = Command::new(&program).arg(directory).output().expect("the program starts");
    assert!(output.status.success(), "{name}: {}", String::from_utf8_lossy(&output.stderr));
    for line in String::from_utf8(output.stdout).unwrap().lines() {
        let fields: Vec<&str> = line.split('\t').collect();
        let [what, done, seconds, number] = fields[..] else { panic!("{name} printed {line:?}") };
        rates.add(what, done.parse().unwrap(), seconds.parse().unwrap());
        numbers.insert(what.to_string(), u64::from_str_radix(number, 16).unwrap());
    }
    numbers
}

fn main() {
    let directory = env::temp_dir().join(format!("milestarling-bench-{}", std::process::id()));
    fs::create_dir_all(&directory).unwrap();
    let mut random = Random::new(31);
    let texts: Vec<u32> = (0..TEXTS).map(|_| allocated_word(&mut random)).collect();
    let image: Vec<u8> = texts.iter().flat_map(|word| word.to_le_bytes()).collect();
    fs::write(directory.join("texts.bin"), &image).unwrap();

    let mut rates = Rates::default();
    let mut taken = BTreeMap::new();
    let mut listing = vec![0; TEXTS * LINE_MAX + 10];
    for _ in 0..ROUNDS {
        rates.measure("text", TEXTS, || {
            for &word in &texts {
                let mut line = [0; 64];
                assert_eq!(raw::text(word, black_box(&mut line)).answer, 0);
            }
        });
        rates.measure("reference's text", TEXTS, || {
            for &word in &texts {
                let mut line = [0; 64];
                assert_eq!(reference::writing::write(word, black_box(&mut line)).0, 0);
            }
        });
        rates.measure("listing", TEXTS, || {
            black_box(list(&image, &mut listing).unwrap());
        });
        taken = peer(&mut rates, "disassemblers", &directory);
    }
    fs::remove_dir_all(&directory).unwrap();

    println!(
        "The best pass of {ROUNDS} rounds of {} ms each, all taking turns. Caches are warm: a pass",
        TIME.as_millis()
    );
    println!("goes over the same buffers as the one before it.");
    println!("\nTexts: {TEXTS} allocated words, evenly of the nine families. Of these a disassembler took:");
    for (name, number) in &taken {
        println!("    {name}: {number}");
    }
    let lines = [
        ("text", "milestarling_text"),
        ("reference's text", "reference in Rust, which allocates strings"),
        ("LLVM", "LLVMDisasmInstruction"),
        ("Capstone", "cs_disasm, all words at once"),
        ("Capstone, one by one", "cs_disasm_iter"),
    ];
    rates.show("Words to text", "M words/s", &lines.map(|(name, shown)| (name.to_string(), shown)));
    let listings = [
        ("listing", "milestarling_list, with digits and answers"),
        ("LLVM", "LLVMDisasmInstruction"),
        ("Capstone", "cs_disasm, all words at once"),
    ];
    rates.show("A whole listing", "M words/s", &listings.map(|(name, shown)| (name.to_string(), shown)));
    println!();
    for line in DIFFERENCES {
        println!("{line}");
    }
}

const DIFFERENCES: [&str; 5] = [
    "What differs. LLVM and Capstone know the whole instruction set and print in their own notation. Both refuse most of the",
    "words that are unpredictable, and Capstone 4 doesn't know the ordered ones. A listing has eight digits, two tabs, an",
    "answer and a newline more for each word than their texts; milestarling_text writes the text alone.",
    "Short measurements on a busy machine: compare the numbers of one run with each other, and not with those of",
    "another.",
];
