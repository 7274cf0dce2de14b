//! Help texts, from the descriptions of the commands.
use crate::command::{Choice, Command};

/// What the program is, in one line.
pub const ABOUT: &str =
    "wire drawings of battery enclosures: every solid they allow, an exact volume, and a verdict on a face list";

/// What every command has in common, a paragraph to each.
pub const NOTES: [&str; 3] = [
    "Every answer comes from a proved program, which NIBGRAVEL_CLERK names or which stands beside this one as `clerk`.",
    "A FILE may be - for standard input. Of a sheet or a face list no more than 1,024 bytes are read: a longer one \
     has the same answer.",
    "Exit status: 0 assessed, accepted or done; 1 not assessed or refused; 2 misuse, or something that couldn't be \
     read, written or told. Of several files the highest.",
];

const WIDTH: usize = 78;

pub fn version() -> String {
    concat!("nibgravel ", env!("CARGO_PKG_VERSION"), "\n").to_string()
}

/// `nibgravel --help`
pub fn overview(commands: &[&Command]) -> String {
    let mut text = wrapped(&format!("nibgravel: {ABOUT}"), "") + "\n";
    for command in commands {
        text += &format!("  nibgravel {}\n", command.usage());
        text += &wrapped(command.about, "      ");
    }
    for note in NOTES {
        text += &format!("\n{}", wrapped(note, ""));
    }
    text + "\nnibgravel COMMAND --help says more, with an example; nibgravel --version says which release this is.\n"
}

/// `nibgravel COMMAND --help`
pub fn of(command: &Command) -> String {
    let mut text = format!("nibgravel {}\n{}", command.usage(), wrapped(command.about, "    "));
    for paragraph in command.details {
        text += &format!("\n{}", wrapped(paragraph, ""));
    }
    text += "\n";
    for option in command.choices() {
        text += &format!("  {:22}{}\n", names(option), option.about);
    }
    let (words, prints) = command.example;
    text += &format!("\nExample:\n  $ nibgravel {words}\n");
    prints.lines().fold(text, |text, line| text + format!("  {line}").trim_end() + "\n")
}

/// As `-o, --output FILE`.
pub fn names(option: &Choice) -> String {
    let short = option.short.map_or(String::new(), |short| format!("-{short}, "));
    let value = option.value.map_or(String::new(), |(value, _)| format!(" {value}"));
    format!("{short}--{}{value}", option.long)
}

/// A paragraph in lines that a terminal has room for.
fn wrapped(paragraph: &str, indent: &str) -> String {
    let (mut text, mut line) = (String::new(), indent.to_string());
    for word in paragraph.split_whitespace() {
        if line.len() + word.len() > WIDTH && line.len() > indent.len() {
            text += &format!("{}\n", line.trim_end());
            line = indent.to_string();
        }
        line += &format!("{word} ");
    }
    text + line.trim_end() + "\n"
}
