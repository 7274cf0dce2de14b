//! What a command is: the one description from which its line is read and its help, completions and manual are made.

pub struct Command {
    pub name: &'static str,
    /// One line.
    pub about: &'static str,
    pub operands: &'static [Operand],
    /// Beside [`COMMON`].
    pub options: &'static [Choice],
    /// Whole sentences, a paragraph to each.
    pub details: &'static [&'static str],
    /// Words behind the program's name, and what they print (or nothing where they write a file).
    pub example: (&'static str, &'static str),
}

pub struct Operand {
    pub name: &'static str,
    pub takes: Takes,
    /// One or more of it.
    pub many: bool,
}

/// An option.
pub struct Choice {
    pub long: &'static str,
    pub short: Option<char>,
    /// The value's name, if it has one.
    pub value: Option<(&'static str, Takes)>,
    pub about: &'static str,
}

/// What a word stands for, so that it can be completed.
#[derive(Clone, Copy, PartialEq, Eq)]
pub enum Takes {
    File,
    Folder,
    Number,
    OneOf(&'static [&'static str]),
}

pub const fn file(name: &'static str) -> Operand {
    Operand { name, takes: Takes::File, many: false }
}

pub const JSON: Choice = Choice {
    long: "json",
    short: None,
    value: None,
    about: "print one JSON object for each file, on a line of its own",
};
pub const HELP: Choice = Choice { long: "help", short: Some('h'), value: None, about: "say what the command does" };
pub const VERSION: Choice = Choice { long: "version", short: None, value: None, about: "say which release this is" };

/// The options of every command.
pub const COMMON: [Choice; 3] = [JSON, HELP, VERSION];

pub const LIMIT: Choice = Choice {
    long: "limit",
    short: None,
    value: Some(("N", Takes::Number)),
    about: "the most assumptions that a search may make, 0 to 1000000 (1000000)",
};

pub const fn output(value: &'static str, takes: Takes, about: &'static str) -> Choice {
    Choice { long: "output", short: Some('o'), value: Some((value, takes)), about }
}

impl Command {
    /// Its own options, then those of every command.
    pub fn choices(&self) -> impl Iterator<Item = &'static Choice> {
        self.options.iter().chain(&COMMON)
    }

    /// As `assess [--limit N] FILE..`.
    pub fn usage(&self) -> String {
        let mut line = self.name.to_string();
        for operand in self.operands {
            line += &format!(" {}{}", operand.name, if operand.many { ".." } else { "" });
        }
        for option in self.options {
            line += &format!(" [{}]", option.usage());
        }
        line + " [--json]"
    }
}

impl Choice {
    /// As `-o FILE` or `--limit N`.
    pub fn usage(&self) -> String {
        let name = self.short.map_or(format!("--{}", self.long), |short| format!("-{short}"));
        self.value.map_or(name.clone(), |(value, _)| format!("{name} {value}"))
    }
}
