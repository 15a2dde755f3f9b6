//! The table of commands: what each is called with and what it does. Calls are read by it, and the help, the manual page and
//! the completion of shells are made of it.

use crate::call::Call;
use crate::input::Failure;
use crate::{answers, case, check, completion, help, import, list, man, report, rescue, trace, why, words};
use std::io::Write;
use Part::{Says, Terms};

/// A row of the table.
pub struct Command {
    pub name: &'static str,
    /// What stands behind the name beside options. Words that it is one of are parted by `|`, and a `FILE` is a file's name.
    pub operands: &'static str,
    /// What it does, in a few words.
    pub about: &'static str,
    pub options: &'static [Flag],
    /// What it does.
    pub text: &'static [Part],
    pub run: fn(&Call, &mut dyn Write) -> Result<(), Failure>,
}

/// An option.
pub struct Flag {
    pub name: &'static str,
    /// What its value is called, where it has one.
    pub value: Option<&'static str>,
    /// Whether a call has to have it.
    pub needed: bool,
    /// What it does, in a few words.
    pub about: &'static str,
}

impl Flag {
    /// One without a value.
    const fn new(name: &'static str, about: &'static str) -> Flag {
        Flag { name, value: None, needed: false, about }
    }

    const fn with_value(name: &'static str, value: &'static str, about: &'static str) -> Flag {
        Flag { name, value: Some(value), needed: false, about }
    }

    const fn needed(self) -> Flag {
        Flag { needed: true, ..self }
    }

    /// Its name, and what its value is called.
    pub fn synopsis(&self) -> String {
        self.value.map_or_else(|| self.name.to_string(), |value| format!("{} {value}", self.name))
    }
}

/// A part of a text. What is typed or written stands in backquotes.
pub enum Part {
    /// A paragraph.
    Says(&'static str),
    /// Terms, and what each means.
    Terms(&'static [(&'static str, &'static str)]),
}

/// What the whole command is.
pub const ABOUT: &str = "the loads and stores of an AArch64 emulator";

/// What it is for, where there is room to say it.
pub const SUMMARY: &str =
    "Lists AArch64 words and reads their texts, runs loads and stores as a machine does that keeps secrets from \
     choosing addresses, and tells why a byte is tainted.";

/// Options of every command, and of none.
pub const COMMON: &[(&str, &str)] = &[
    ("-h, --help", "what all commands do; `milestarling help COMMAND` tells of one"),
    ("-V, --version", "the version"),
];

/// The statuses that a call ends with.
pub const STATUSES: &[(&str, &str)] = &[
    ("0", "all went well, or whoever reads the output has closed it"),
    ("1", "something was refused or failed"),
    ("2", "the command was called wrongly, or `check` couldn't read a file"),
];

/// What goes for all commands.
pub const CLOSING: &str =
    "Where no file or word is named, or the file is `-`, standard input is read. Words behind `--` are no options. \
     Numbers are in decimal or after 0x in hexadecimal. The answers are those of docs/ANSWERS.md, which \
     `milestarling answer` has too. What is wrong is said on standard error, behind what was written before it.";

const EACH: Flag = Flag::new("--each", "takes several files, each behind a line with its name");

const JSON: Flag = Flag::new("--json", "writes the same as a JSON document");

/// What a case says, a statement a line.
pub const STATEMENTS: &[(&str, &str)] = &[
    ("# WORDS", "a comment"),
    ("origin NUMBER", "the address of memory's first byte, at first 0"),
    ("readonly NUMBER", "how many bytes at the start of memory can't be stored to, at first 0"),
    ("bytes HEX..", "more bytes of memory, two digits each"),
    ("letters LETTERS", "more bytes of memory: the rest of the line"),
    ("zeros NUMBER", "more bytes of memory, so many and all 0"),
    (
        "image FILE",
        "bytes of an Intel HEX file, by their addresses, over the memory that stands before this line, and not \
         tainted",
    ),
    ("x0 NUMBER", "the value of x0 to x30 or sp, at first 0"),
    ("q0 NUMBER", "the value of a vector register, q0 to q31, at first 0, with up to 128 bits"),
    ("pc NUMBER", "the program counter, at first 0"),
    (
        "monitor NUMBER NUMBER",
        "the address and the size that a load-exclusive has armed the monitor with, at first open",
    ),
    ("tainted STATEMENT", "bytes, letters, zeros or a register that are tainted"),
    (
        "tainted x2.0-3 NUMBER",
        "a register of which these bytes alone are tainted, 0 to 7 from the lowest on, and of a vector register 0 to \
         15: one, from one to another, or such parted by commas (x2.0-3,7)",
    ),
    ("word HEX", "one more word to run"),
    ("ldr x0, [x1, #8]", "one more word to run, by its text: any line that begins with none of these names"),
];

/// What a case of two plugins says besides.
pub const PLUGIN_STATEMENTS: &[(&str, &str)] = &[
    (
        "shared NUMBER NUMBER",
        "the address and the length of the range that both load from and neither stores to, in place of `readonly`",
    ),
    (
        "plugin NAME NUMBER NUMBER",
        "one of the two, and the address and the length of its own range: registers, pc and monitor behind it are \
         its",
    ),
    (
        "turn NAME",
        "one more turn of this plugin: the words behind it are run in it. A refused word ends the turn, and the next \
         is taken",
    ),
];

const TRACE_STATEMENTS: &[(&str, &str)] = &[
    ("milestarling trace 1", "the first line"),
    ("# WORDS", "a comment"),
    ("origin NUMBER", "the address of memory's first byte, at first 0"),
    ("readonly NUMBER", "how many bytes at the start of memory can't be stored to, at first 0"),
    ("length NUMBER", "how many bytes memory has, at first 0"),
    ("taints NUMBER", "how many taint bytes, where they aren't as many"),
    ("pc NUMBER", "the program counter at the start, at first 0"),
    ("tainted x2.0-3", "bytes of a register, or a whole one, tainted at the start"),
    ("tainted NUMBER NUMBER", "bytes of memory tainted at the start: an address, and how many"),
    ("step HEX NUMBER NUMBER NUMBER", "a step done: its word, code, address and status"),
    ("word HEX", "a word behind them, of which the first was refused"),
];

/// All commands, in the order of the help.
pub const COMMANDS: &[Command] =
    &[LIST, RESCUE, WORD, TEXT, RUN, IMPORT, WHY, TRACE, CHECK, REPORT, ANSWER, COMPLETION, MAN, HELP];

/// How many of them do the library's work. The others explain it, and are named apart.
const MAIN: usize = 8;

const LIST: Command = Command {
    name: "list",
    operands: "[FILE..]",
    about: "list the words of an image or an ELF file",
    options: &[
        Flag::with_value("--at", "ADDRESS", "begins each line with its address, counted from this one, and a tab"),
        Flag::new("--sections", "goes by an ELF file's sections, with names and data: object files too"),
        EACH,
        JSON,
    ],
    text: &[
        Says(
            "Lists little-endian words: a line for each with the word, its text or `-`, and its answer 0, 2 (not a \
             load or store of the set), 3 (undefined) or 4 (unpredictable), parted by tabs; and a line `short` for \
             bytes that are left over. With --json it takes several files.",
        ),
        Says(
            "Of an ELF file the executable load segments are listed, with their own addresses and all that is in \
             them. With --sections its executable sections are: behind a line with the section's name, and with a \
             line like `0000000000001234 <name>:` before the word that a symbol names. A line `data` stands for bytes \
             that symbols ($d) say to be data, with their number. A file without section headers goes by segments \
             all the same, which is said.",
        ),
    ],
    run: list::command,
};

const RESCUE: Command = Command {
    name: "rescue",
    operands: "[FILE]",
    about: "rescue a damaged listing",
    options: &[Flag::with_value("--report", "FILE", "writes what became of each line to a file, by its number")],
    text: &[Says(
        "Rescues a damaged listing, line by line: a line that is what its eight digits give is kept; one whose \
         digits are damaged is restored from its text; any other is dropped, `short` lines too. Says how many lines \
         were kept, restored and dropped on standard error. The status is 1 where a line was dropped.",
    )],
    run: rescue::command,
};

const WORD: Command = Command {
    name: "word",
    operands: "[HEX..]",
    about: "list words",
    options: &[JSON],
    text: &[Says(
        "Lists words that are given by up to eight hexadecimal digits. Behind answer 2 stands `touches memory`, of a \
         load or store that isn't taken and of `dc zva`, or `doesn't touch memory`, of a word that is the host's to \
         compute.",
    )],
    run: words::word,
};

const TEXT: Command = Command {
    name: "text",
    operands: "[LINE..]",
    about: "list the words of texts",
    options: &[JSON],
    text: &[Says(
        "Lists the words whose texts these lines are. A line is one argument: `milestarling text 'ldr x0, [x1, \
         #8]'`. Texts are exact; of one that is almost right it is said what is wrong, and which text was meant.",
    )],
    run: words::text,
};

const RUN: Command = Command {
    name: "run",
    operands: "[FILE..]",
    about: "run a case",
    options: &[Flag::new("--secrets", "shows what is tainted"), EACH, JSON],
    text: &[
        Says(
            "Runs a case and shows each step, whether it is a store-exclusive that failed, and what it taints, and \
             then the registers and the vector registers that aren't 0, the monitor where it isn't open, and memory. \
             Behind answer 5 stand the tainted bytes that the address would have come from. The status is 1 where a \
             word was refused. With --json it takes several files.",
        ),
        Says(
            "A tainted byte is shown as `**`, and by --secrets as it is: in memory with a star behind it, and in a \
             register by a statement that begins with `tainted`. A case has one statement a line:",
        ),
        Terms(STATEMENTS),
        Says(
            "A case may be of two plugins that take turns in one memory. Then each turn is shown with its steps and \
             its answer, and both plugins' registers:",
        ),
        Terms(PLUGIN_STATEMENTS),
    ],
    run: case::command,
};

const IMPORT: Command = Command {
    name: "import",
    operands: "[FILE]",
    about: "read a memory image in Intel HEX",
    options: &[
        Flag::with_value("--at", "ADDRESS", "the address of the first byte").needed(),
        Flag::with_value("--size", "NUMBER", "how many bytes").needed(),
        Flag::with_value("--out", "FILE", "writes the bytes to a file"),
    ],
    text: &[Says(
        "Reads a memory image in Intel HEX into so many zeros from an address on, and writes them to a file, or \
         without one the ranges that the image has bytes in. A line that is refused is named. docs/ANSWERS.md has \
         the commands that make of what objcopy writes a text that is taken.",
    )],
    run: import::command,
};

const WHY: Command = Command {
    name: "why",
    operands: "[FILE] [PLACE]",
    about: "tell why a byte is tainted",
    options: &[Flag::with_value("--at", "STEP", "asks about the moment just after a step (0 is the start)"), JSON],
    text: &[Says(
        "Tells why a place is tainted at the end of a case's run: the step that tainted it, its text, and the place \
         that it was copied from, and so on back to the start. A place is a register (x3, sp, q5 or v5: all of its \
         tainted bytes), a byte of one (x3.2), or an address (0x1010). Without a place, those are told of that a \
         word was refused for with answer 5. The file is a case of one plugin or a trace. No value of a register or \
         of memory is shown.",
    )],
    run: why::command,
};

const TRACE: Command = Command {
    name: "trace",
    operands: "[FILE] | CODE ADDRESS..",
    about: "write the trace of a case, or read one in words",
    options: &[],
    text: &[
        Says(
            "Of numbers, each two a code and an address as a run leaves them, says in words what each step did: \
             `milestarling trace 1 4096 65 4112`.",
        ),
        Says(
            "Of a file, runs a case of one plugin and writes its trace: a text with all that `why` goes by and with \
             no values, for those who don't have the case. A trace has one statement a line:",
        ),
        Terms(TRACE_STATEMENTS),
    ],
    run: trace::command,
};

const CHECK: Command = Command {
    name: "check",
    operands: "[FILE..]",
    about: "find loads and stores that aren't taken",
    options: &[
        Flag::with_value("--at", "ADDRESS", "the address of an image's first word, at first 0"),
        Flag::new(
            "--segments",
            "goes by an ELF file's load segments, with all that is in them: section headers can lie",
        ),
        JSON,
    ],
    text: &[Says(
        "Lists the loads and stores of an image or an ELF file that this machine doesn't take, as `list` does, with \
         the reason and the symbol behind each: what kind it is, or by which rule of docs/RULES.md it is undefined \
         or unpredictable. The last line counts. It goes by sections as `list --sections` does. `dc zva` counts as \
         a store, and the loads and stores of SVE and SME, which a host doesn't show, aren't looked for. The status \
         is 0 where all are taken, 1 where some aren't, and 2 where a file couldn't be read.",
    )],
    run: check::command,
};

const REPORT: Command = Command {
    name: "report",
    operands: "[FILE]",
    about: "write a page about a case for a help desk",
    options: &[Flag::with_value("--out", "FILE", "writes the page to a file, whole or not at all")],
    text: &[Says(
        "Runs a case and writes a page of HTML about it, to standard output or to a file: the answer in plain words with what \
         to do next, for an answer 5 the way of the secret to the refused address, the steps, and memory with the bytes \
         touched and tainted. The page loads nothing, and has no value of a register or of memory: runs that differ only in \
         secrets have the same page. The status is 0 where it was written, whatever the answer is.",
    )],
    run: report::command,
};

const ANSWER: Command = Command {
    name: "answer",
    operands: "[NUMBER..]",
    about: "explain an answer",
    options: &[],
    text: &[Says(
        "Says what an answer means, who can mend it and what to ask, in the words of docs/ANSWERS.md. Without a \
         number, lists all answers.",
    )],
    run: answers::command,
};

const COMPLETION: Command = Command {
    name: "completion",
    operands: "bash|zsh|fish",
    about: "write a shell's completion",
    options: &[],
    text: &[Says(
        "Writes the completion of this command for a shell. In bash: `source <(milestarling completion bash)`. In \
         zsh, below a directory of fpath: `milestarling completion zsh > _milestarling`. In fish: `milestarling \
         completion fish > ~/.config/fish/completions/milestarling.fish`.",
    )],
    run: completion::command,
};

const MAN: Command = Command {
    name: "man",
    operands: "",
    about: "write the manual page",
    options: &[],
    text: &[Says(
        "Writes this text as a manual page, in roff: `milestarling man > milestarling.1` and `man -l \
         milestarling.1`.",
    )],
    run: man::command,
};

const HELP: Command = Command {
    name: "help",
    operands: "[COMMAND]",
    about: "tell what a command does",
    options: &[],
    text: &[Says("Tells what a command does, or what all do.")],
    run: help::command,
};

/// The command of a name.
pub fn find(name: &str) -> Option<&'static Command> {
    COMMANDS.iter().find(|command| command.name == name)
}

/// The names of all, as a sentence has them.
pub fn names() -> String {
    let (main, others) = COMMANDS.split_at(MAIN);
    format!("{}, and also {}", one_of(main), one_of(others))
}

fn one_of(commands: &[Command]) -> String {
    let names: Vec<&str> = commands.iter().map(|command| command.name).collect();
    match &names[..] {
        [others @ .., last] => format!("{} or {last}", others.join(", ")),
        [] => String::new(),
    }
}

impl Command {
    pub fn option(&self, name: &str) -> Option<&'static Flag> {
        self.options.iter().find(|flag| flag.name == name)
    }

    /// Whether it takes one file, where no option asks for more.
    pub fn takes_one_file(&self) -> bool {
        self.operands == "[FILE]" || self.option(EACH.name).is_some()
    }

    /// How it is called, without the command's own name.
    pub fn synopsis(&self) -> String {
        let mut synopsis = self.name.to_string();
        if !self.operands.is_empty() {
            synopsis += &format!(" {}", self.operands);
        }
        for flag in self.options {
            let flag = if flag.needed { flag.synopsis() } else { format!("[{}]", flag.synopsis()) };
            synopsis += &format!(" {flag}");
        }
        synopsis
    }
}
