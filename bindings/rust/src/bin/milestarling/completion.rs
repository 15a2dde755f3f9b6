//! `milestarling completion`: the table of commands as a shell's completion.

use crate::call::Call;
use crate::commands::{Command, Flag, COMMANDS};
use crate::input::Failure;
use std::io::Write;

/// `milestarling completion`.
pub fn command(call: &Call, output: &mut dyn Write) -> Result<(), Failure> {
    let script = match call.operands[..] {
        ["bash"] => bash(),
        ["zsh"] => zsh(),
        ["fish"] => fish(),
        _ => return Err(Failure::Usage("say for which shell: bash, zsh or fish".into())),
    };
    output.write_all(script.as_bytes()).map_err(Failure::write)
}

impl Command {
    fn takes_files(&self) -> bool {
        self.operands.contains("FILE")
    }

    /// The words that its operand is one of.
    fn choices(&self) -> Vec<&'static str> {
        match self.operands {
            "[COMMAND]" => COMMANDS.iter().map(|command| command.name).collect(),
            _ if self.operands.contains(' ') => Vec::new(),
            _ => self.operands.split('|').filter(|_| self.operands.contains('|')).collect(),
        }
    }

    fn option_names(&self) -> Vec<&'static str> {
        self.options.iter().map(|flag| flag.name).chain(["--help", "--version"]).collect()
    }
}

impl Flag {
    fn takes_file(&self) -> bool {
        self.value == Some("FILE")
    }
}

fn names() -> Vec<&'static str> {
    COMMANDS.iter().map(|command| command.name).collect()
}

fn bash() -> String {
    let mut cases = String::new();
    for command in COMMANDS {
        let words = command.choices().into_iter().chain(command.option_names()).collect::<Vec<_>>().join(" ");
        let files = if command.takes_files() { "yes" } else { "" };
        cases += &format!("        {}) words='{words}'; files={files} ;;\n", command.name);
    }
    let valued = |file: bool| -> String {
        let named = COMMANDS.iter().flat_map(|command| {
            let flags = command.options.iter().filter(move |flag| flag.value.is_some() && flag.takes_file() == file);
            flags.map(|flag| format!("{}:{}", command.name, flag.name))
        });
        named.collect::<Vec<_>>().join("|")
    };
    format!(
        "\
_milestarling() {{
    local word=${{COMP_WORDS[COMP_CWORD]}} before=${{COMP_WORDS[COMP_CWORD-1]}} name=${{COMP_WORDS[1]}} words= files=
    COMPREPLY=()
    if [ \"$COMP_CWORD\" -eq 1 ]; then
        mapfile -t COMPREPLY < <(compgen -W '{} --help --version' -- \"$word\")
        return
    fi
    case \"$name:$before\" in
        {}) mapfile -t COMPREPLY < <(compgen -f -- \"$word\"); return ;;
        {}) return ;;
    esac
    case \"$name\" in
{cases}    esac
    mapfile -t COMPREPLY < <(compgen -W \"$words\" -- \"$word\"; [ -z \"$files\" ] || compgen -f -- \"$word\")
}}
complete -o filenames -F _milestarling milestarling
",
        names().join(" "),
        valued(true),
        valued(false)
    )
}

/// A text in which zsh finds no end of a description.
fn zsh_said(text: &str) -> String {
    text.replace('\\', "\\\\").replace('\'', "'\\''").replace([':', '[', ']'], " ")
}

/// What zsh completes behind a command's name.
fn zsh_arguments(command: &Command) -> String {
    let mut rows = String::new();
    for flag in command.options {
        let value = match flag.value {
            Some("FILE") => ":file:_files".to_string(),
            Some(value) => format!(":{}: ", value.to_lowercase()),
            None => String::new(),
        };
        rows += &format!("                '{}[{}]{value}' \\\n", flag.name, zsh_said(flag.about));
    }
    let operands = match command.choices() {
        _ if command.takes_files() => "'*:file:_files'".to_string(),
        choices if choices.is_empty() => "'*: : '".to_string(),
        choices => format!("'1:word:({})'", choices.join(" ")),
    };
    format!("{rows}                '--help[tell what all do]' \\\n                {operands}\n")
}

fn zsh() -> String {
    let (mut rows, mut cases) = (String::new(), String::new());
    for command in COMMANDS {
        rows += &format!("        '{}:{}'\n", command.name, zsh_said(command.about));
        let arguments = zsh_arguments(command);
        cases += &format!("        {})\n            _arguments \\\n{arguments}            ;;\n", command.name);
    }
    format!(
        "\
#compdef milestarling
_milestarling() {{
    local -a commands
    commands=(
{rows}    )
    if (( CURRENT == 2 )); then
        _describe command commands
        _arguments '--help[tell what all do]' '--version[tell the version]'
        return
    fi
    local name=${{words[2]}}
    shift words
    (( CURRENT-- ))
    case \"$name\" in
{cases}    esac
}}
if [ \"$funcstack[1]\" = _milestarling ]; then
    _milestarling \"$@\"
else
    compdef _milestarling milestarling
fi
"
    )
}

fn fish() -> String {
    let said = |text: &str| text.replace('\\', "\\\\").replace('\'', "\\'");
    let mut lines = String::from("complete -c milestarling -f\n");
    let first = "not __fish_seen_subcommand_from $milestarling_commands";
    lines.insert_str(0, &format!("set -l milestarling_commands {}\n", names().join(" ")));
    for command in COMMANDS {
        lines += &format!("complete -c milestarling -n \"{first}\" -a {} -d '{}'\n", command.name, said(command.about));
    }
    for command in COMMANDS {
        let behind = format!("complete -c milestarling -n '__fish_seen_subcommand_from {}'", command.name);
        for flag in command.options {
            let value = match flag.value {
                Some("FILE") => " -r -F",
                Some(_) => " -x",
                None => "",
            };
            lines += &format!("{behind} -l {}{value} -d '{}'\n", flag.name.trim_start_matches('-'), said(flag.about));
        }
        if command.takes_files() {
            lines += &format!("{behind} -F\n");
        }
        if !command.choices().is_empty() {
            lines += &format!("{behind} -a '{}'\n", command.choices().join(" "));
        }
    }
    lines += "complete -c milestarling -s h -l help -d 'tell what all do'\n";
    lines + "complete -c milestarling -s V -l version -d 'tell the version'\n"
}
