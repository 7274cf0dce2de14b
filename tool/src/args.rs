//! A command's line: its words and options.
use crate::command::{Choice, Command};
use crate::input::shown;
use crate::trouble::Trouble;
use nibgravel_numbers::MOST_WORK;
use std::ffi::{OsStr, OsString};

pub struct Args {
    command: &'static Command,
    words: Vec<OsString>,
    /// By long name; the last one of a name counts.
    options: Vec<(&'static str, OsString)>,
}

impl Args {
    pub fn parse(command: &'static Command, line: &[OsString]) -> Result<Args, Trouble> {
        let mut args = Args { command, words: vec![], options: vec![] };
        let mut rest = line.iter();
        while let Some(word) = rest.next() {
            if word == "--" {
                args.words.extend(rest.by_ref().cloned());
            } else if word == "-" || !word.as_encoded_bytes().starts_with(b"-") {
                args.words.push(word.clone());
            } else {
                args.option(word, &mut rest)?;
            }
        }
        Ok(args)
    }

    /// `--limit N`, `--limit=N`, `-o FILE` or `-oFILE`.
    fn option<'a>(&mut self, word: &OsStr, rest: &mut impl Iterator<Item = &'a OsString>) -> Result<(), Trouble> {
        let (option, joined) = self.known(word).ok_or_else(|| self.misuse(&format!("no option {}", shown(word))))?;
        let value = match (option.value, joined) {
            (None, None) => OsString::new(),
            (None, Some(_)) => return Err(self.misuse(&format!("--{} takes no value", option.long))),
            (Some(_), Some(value)) => value,
            (Some((value, _)), None) => {
                let next = rest.next().cloned();
                next.ok_or_else(|| self.misuse(&format!("{} is missing behind {}", value, shown(word))))?
            }
        };
        self.options.push((option.long, value));
        Ok(())
    }

    /// The option that a word names, and the value that is joined to it.
    fn known(&self, word: &OsStr) -> Option<(&'static Choice, Option<OsString>)> {
        let named = |option: &&Choice| {
            let long = joined(word, &format!("--{}", option.long)).is_some_and(|rest| value_behind(&rest).is_some());
            long || option.short.is_some_and(|short| joined(word, &format!("-{short}")).is_some())
        };
        let option = self.command.choices().find(named)?;
        let long = joined(word, &format!("--{}", option.long)).and_then(|rest| value_behind(&rest));
        let short =
            || option.short.and_then(|short| joined(word, &format!("-{short}"))).filter(|rest| !rest.is_empty());
        Some((option, long.unwrap_or_else(short)))
    }

    pub fn has(&self, long: &str) -> bool {
        self.options.iter().any(|(name, _)| *name == long)
    }

    fn value(&self, long: &str) -> Option<&OsStr> {
        self.options.iter().rev().find(|(name, _)| *name == long).map(|(_, value)| value.as_os_str())
    }

    pub fn json(&self) -> bool {
        self.has("json")
    }

    pub fn output(&self) -> Option<&OsStr> {
        self.value("output")
    }

    /// The highest one where none is named, as at the desk; else any number of 64 bits: what is wrong with a larger limit is for the proved program to say.
    pub fn limit(&self) -> Result<u64, Trouble> {
        match self.value("limit") {
            None => Ok(MOST_WORK),
            Some(value) => number(value).ok_or_else(|| self.misuse("--limit takes a whole number of at most 64 bits")),
        }
    }

    /// Refuses --json where what is made would have to share standard output with it.
    pub fn apart_from_json(&self, made: &str) -> Result<(), Trouble> {
        if self.json() && self.output().is_none_or(|name| name == "-") {
            return Err(self.misuse(&format!("with --json the {made} needs a file, behind -o")));
        }
        Ok(())
    }

    pub fn words(&self) -> &[OsString] {
        &self.words
    }

    /// A word that [`Args::counted`] has found to be there.
    pub fn word(&self, k: usize) -> &OsStr {
        self.words.get(k).map_or(OsStr::new(""), |word| word.as_os_str())
    }

    /// Refuses words that are missing or too many, and standard input where it would be read twice.
    pub fn counted(&self) -> Result<(), Trouble> {
        let operands = self.command.operands;
        if let Some(missing) = operands.get(self.words.len()) {
            return Err(self.misuse(&format!("{} is missing", missing.name)));
        }
        if self.words.len() > operands.len() && !operands.last().is_some_and(|operand| operand.many) {
            return Err(self.misuse(&format!("no word {} here", shown(self.word(operands.len())))));
        }
        if self.words.iter().filter(|word| *word == "-").count() > 1 {
            return Err(self.misuse("standard input can be read once only"));
        }
        Ok(())
    }

    pub fn misuse(&self, what: &str) -> Trouble {
        Trouble::Misuse(format!("{0}: {what}; see nibgravel {0} --help", self.command.name))
    }
}

/// A whole number of 64 bits, of digits alone.
pub fn number(word: &OsStr) -> Option<u64> {
    word.to_str().filter(|text| text.bytes().all(|digit| digit.is_ascii_digit())).and_then(|text| text.parse().ok())
}

/// What stands behind a prefix.
fn joined(word: &OsStr, prefix: &str) -> Option<OsString> {
    use std::os::unix::ffi::{OsStrExt, OsStringExt};
    word.as_bytes().strip_prefix(prefix.as_bytes()).map(|rest| OsString::from_vec(rest.to_vec()))
}

/// Behind a long name: nothing, or a value after `=`; anything else is another name.
fn value_behind(rest: &OsStr) -> Option<Option<OsString>> {
    if rest.is_empty() {
        Some(None)
    } else {
        joined(rest, "=").map(Some)
    }
}
