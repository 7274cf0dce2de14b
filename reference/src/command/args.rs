//! The words and options of a command line, and what is said in return.
use std::io::Write;
use std::str::FromStr;

pub struct Args {
    words: Vec<String>,
    /// `--name value`
    options: Vec<(String, String)>,
}

impl Args {
    pub fn new(args: impl Iterator<Item = String>) -> Args {
        let (mut words, mut options) = (vec![], vec![]);
        let mut args = args;
        while let Some(arg) = args.next() {
            match arg.strip_prefix("--") {
                Some("help") => words.insert(0, "help".to_string()),
                Some("version") if words.is_empty() => words.push("version".to_string()),
                Some(name) => options.push((name.to_string(), args.next().unwrap_or_default())),
                None if arg == "-h" => words.insert(0, "help".to_string()),
                None => words.push(arg),
            }
        }
        Args { words, options }
    }

    pub fn word(&self, k: usize) -> Option<&str> {
        self.words.get(k).map(|word| word.as_str())
    }

    /// A file or folder that the command can't do without.
    pub fn path(&self, k: usize) -> Result<&str, String> {
        self.word(k).ok_or_else(|| "a file or folder is missing; see reference --help".to_string())
    }

    /// Refuses words behind so many, and options that the command doesn't have.
    pub fn allow(&self, words: usize, names: &[&str]) -> Result<(), String> {
        if let Some(word) = self.word(words) {
            return Err(format!("no word `{word}` here; see reference --help"));
        }
        match self.options.iter().find(|(name, _)| !names.contains(&name.as_str())) {
            Some((name, _)) => Err(format!("no option --{name} here; see reference --help")),
            None => Ok(()),
        }
    }

    pub fn number<T: FromStr>(&self, name: &str, otherwise: T) -> Result<T, String> {
        match self.options.iter().find(|(n, _)| n == name) {
            Some((_, value)) => value.parse().map_err(|_| format!("--{name} needs a number, not `{value}`")),
            None => Ok(otherwise),
        }
    }

    /// One of some values; the first where the option isn't given.
    pub fn choice<'a>(&self, name: &str, values: &[&'a str]) -> Result<&'a str, String> {
        match self.options.iter().find(|(n, _)| n == name) {
            Some((_, value)) => values
                .iter()
                .find(|v| *v == value)
                .copied()
                .ok_or_else(|| format!("--{name} is one of {}, not `{value}`", values.join(", "))),
            None => Ok(values[0]),
        }
    }
}

/// Writes to standard output; where that fails it is an error.
pub fn say(text: &str) -> Result<(), String> {
    let mut out = std::io::stdout().lock();
    out.write_all(text.as_bytes()).and_then(|()| out.flush()).map_err(|e| format!("standard output: {e}"))
}
