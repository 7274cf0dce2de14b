//! `manual`: a page for `man`, in roff.
use crate::args::Args;
use crate::command::Command;
use crate::help::{names, ABOUT, NOTES};
use crate::json::Json;
use crate::output::say;
use crate::trouble::Trouble;

pub const COMMAND: Command = Command {
    name: "manual",
    about: "the manual page of this command, for man",
    operands: &[],
    options: &[],
    details: &["With --json the object has text."],
    example: ("manual > nibgravel.1", ""),
};

pub fn run(args: &Args, commands: &[&Command]) -> Result<u8, Trouble> {
    if args.json() {
        return say(&Json::Object(vec![("text", page(commands).into())]).line());
    }
    say(&page(commands))
}

fn page(commands: &[&Command]) -> String {
    let mut text = format!(".TH NIBGRAVEL 1 \"\" \"nibgravel {}\"\n", env!("CARGO_PKG_VERSION"));
    text += &format!(".SH NAME\nnibgravel \\- {}\n.SH SYNOPSIS\n", plain(ABOUT));
    for command in commands {
        text += &format!(".B nibgravel\n{}\n.br\n", plain(&command.usage()));
    }
    text += ".SH DESCRIPTION\n";
    for note in NOTES {
        text += &format!(".PP\n{}\n", plain(note));
    }
    text += ".SH COMMANDS\n";
    commands.iter().fold(text, |text, command| text + &section(command))
}

fn section(command: &Command) -> String {
    let mut text = format!(".SS {}\n{}\n", plain(&command.usage()), plain(&sentence(command.about)));
    for paragraph in command.details {
        text += &format!(".PP\n{}\n", plain(paragraph));
    }
    for option in command.choices() {
        text += &format!(".TP\n.B {}\n{}\n", plain(&names(option)), plain(&sentence(option.about)));
    }
    let (words, prints) = command.example;
    text += &format!(".PP\nExample:\n.PP\n.nf\n$ nibgravel {}\n", plain(words));
    text = prints.lines().fold(text, |text, line| format!("{text}{}\n", plain(line)));
    text + ".fi\n"
}

/// With a capital and a full stop.
fn sentence(words: &str) -> String {
    let mut letters = words.chars();
    let first = letters.next().map_or(String::new(), |letter| letter.to_uppercase().to_string());
    format!("{first}{}.", letters.as_str())
}

/// Text that roff takes for nothing but text. A line may not begin with a dot or a quote.
fn plain(text: &str) -> String {
    let escaped = text.replace('\\', "\\e").replace('-', "\\-").replace('`', "\\(ga");
    if escaped.starts_with(['.', '\'']) {
        format!("\\&{escaped}")
    } else {
        escaped
    }
}
