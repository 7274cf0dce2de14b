//! `completion`: what a shell offers behind `nibgravel`.
use crate::args::Args;
use crate::command::{Choice, Command, Operand, Takes};
use crate::json::Json;
use crate::output::say;
use crate::trouble::Trouble;

const SHELLS: &[&str] = &["bash", "zsh", "fish"];

pub const COMMAND: Command = Command {
    name: "completion",
    about: "completions of this command for a shell",
    operands: &[Operand { name: "SHELL", takes: Takes::OneOf(SHELLS), many: false }],
    options: &[],
    details: &[
        "SHELL is bash, zsh or fish. Bash reads what is printed with source; zsh wants it as a file _nibgravel in a \
         folder of its fpath, and fish as ~/.config/fish/completions/nibgravel.fish.",
        "With --json the object has shell and text.",
    ],
    example: ("completion bash > nibgravel.bash", ""),
};

pub fn run(args: &Args, commands: &[&Command]) -> Result<u8, Trouble> {
    let shell = args.word(0).to_str().unwrap_or_default();
    let text = match shell {
        "bash" => bash(commands),
        "zsh" => zsh(commands),
        "fish" => fish(commands),
        _ => return Err(args.misuse(&format!("SHELL is one of {}", SHELLS.join(", ")))),
    };
    if args.json() {
        return say(&Json::Object(vec![("shell", shell.into()), ("text", text.into())]).line());
    }
    say(&text)
}

fn names(commands: &[&Command]) -> String {
    commands.iter().map(|command| command.name).collect::<Vec<_>>().join(" ")
}

/// As `-o --output --json ..`.
fn flags(command: &Command) -> String {
    let flag = |option: &Choice| {
        let short = option.short.map_or(String::new(), |short| format!("-{short} "));
        format!("{short}--{}", option.long)
    };
    command.choices().map(flag).collect::<Vec<_>>().join(" ")
}

/// What the first word behind a command stands for.
fn first(command: &Command) -> Option<Takes> {
    command.operands.first().map(|operand| operand.takes)
}

fn bash(commands: &[&Command]) -> String {
    let mut text =
        "# bash completion of nibgravel\n_nibgravel() {\n    local word=${COMP_WORDS[COMP_CWORD]} flags= words=\n"
            .to_string();
    text += "    COMPREPLY=()\n    if [ \"$COMP_CWORD\" -eq 1 ]; then\n";
    text += &format!(
        "        COMPREPLY=($(compgen -W \"{} --help --version\" -- \"$word\"))\n        return\n    fi\n",
        names(commands)
    );
    text += "    case ${COMP_WORDS[1]} in\n";
    for command in commands {
        let words = match first(command) {
            Some(Takes::OneOf(words)) => words.join(" "),
            _ => String::new(),
        };
        text += &format!("        {}) flags=\"{}\" words=\"{words}\" ;;\n", command.name, flags(command));
    }
    text += "    esac\n    case $word in\n        -*) COMPREPLY=($(compgen -W \"$flags\" -- \"$word\")) ;;\n";
    text += "        *) COMPREPLY=($(compgen -W \"$words\" -- \"$word\")) ;;\n    esac\n}\n";
    text + "complete -o default -F _nibgravel nibgravel\n"
}

/// What zsh does for a word.
fn action(takes: Takes) -> String {
    match takes {
        Takes::File => "_files".to_string(),
        Takes::Folder => "_files -/".to_string(),
        Takes::Number => String::new(),
        Takes::OneOf(words) => format!("({})", words.join(" ")),
    }
}

fn zsh(commands: &[&Command]) -> String {
    let mut text = "#compdef nibgravel\n_nibgravel() {\n    local -a commands\n    commands=(\n".to_string();
    for command in commands {
        let about = zsh_plain(command.about);
        text += &format!("        '{}:{about}'\n", command.name);
    }
    text += "    )\n    if (( CURRENT == 2 )); then\n        _describe command commands\n        return\n    fi\n";
    text += "    local command=$words[2]\n    shift words\n    (( CURRENT-- ))\n    case $command in\n";
    for command in commands {
        text += &format!("        {}) _arguments{} ;;\n", command.name, zsh_arguments(command));
    }
    text + "    esac\n}\n_nibgravel \"$@\"\n"
}

fn zsh_arguments(command: &Command) -> String {
    let mut text = String::new();
    for option in command.choices() {
        let value = option.value.map_or(String::new(), |(name, takes)| format!(":{name}:{}", action(takes)));
        let long = format!("--{}", option.long);
        for name in [Some(long), option.short.map(|short| format!("-{short}"))].into_iter().flatten() {
            text += &format!(" \\\n            '{name}[{}]{value}'", zsh_plain(option.about));
        }
    }
    for operand in command.operands {
        let many = if operand.many { "*" } else { "" };
        text += &format!(" \\\n            '{many}:{}:{}'", operand.name, action(operand.takes));
    }
    text
}

/// Words between quotes that zsh takes for nothing else.
fn zsh_plain(words: &str) -> String {
    let escaped = [("[", "\\["), ("]", "\\]"), (":", "\\:"), ("'", "'\\''")];
    escaped.into_iter().fold(words.to_string(), |words, (letter, escape)| words.replace(letter, escape))
}

fn fish(commands: &[&Command]) -> String {
    let plain = |words: &str| words.replace('\'', "\\'");
    let mut text = "# fish completion of nibgravel\n".to_string();
    for command in commands {
        let about = plain(command.about);
        text += &format!("complete -c nibgravel -n __fish_use_subcommand -f -a {} -d '{about}'\n", command.name);
        let within = format!("complete -c nibgravel -n '__fish_seen_subcommand_from {}'", command.name);
        for option in command.choices() {
            let short = option.short.map_or(String::new(), |short| format!(" -s {short}"));
            let value = if option.value.is_some() { " -r" } else { "" };
            text += &format!("{within}{short} -l {}{value} -d '{}'\n", option.long, plain(option.about));
        }
        if let Some(Takes::OneOf(words)) = first(command) {
            text += &format!("{within} -f -a '{}'\n", words.join(" "));
        }
    }
    text
}
