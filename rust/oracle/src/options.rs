//! The command line: a verb, options with values, flags, and one file.

use std::path::PathBuf;
use std::str::FromStr;

use oracle::record::Kinds;

/// Words after the verb, taken out one by one; what is left over is an error.
pub struct Options {
    words: Vec<String>,
}

impl Options {
    pub fn new(words: Vec<String>) -> Self {
        Options { words }
    }

    /// Takes out a flag.
    pub fn flag(&mut self, name: &str) -> bool {
        let place = self.words.iter().position(|word| word == name);
        place.map(|at| self.words.remove(at)).is_some()
    }

    /// Takes out an option with its value.
    pub fn value(&mut self, name: &str) -> Result<Option<String>, String> {
        let Some(at) = self.words.iter().position(|word| word == name) else {
            return Ok(None);
        };
        if at + 1 == self.words.len() {
            return Err(format!("'{name}' lacks its value"));
        }
        self.words.remove(at);
        Ok(Some(self.words.remove(at)))
    }

    pub fn number<T: FromStr>(&mut self, name: &str, otherwise: T) -> Result<T, String> {
        match self.value(name)? {
            None => Ok(otherwise),
            Some(value) => value.parse().map_err(|_| format!("'{value}' is no number for '{name}'")),
        }
    }

    pub fn kinds(&mut self) -> Result<Kinds, String> {
        match self.value("--kinds")?.as_deref() {
            None | Some("all") => Ok(Kinds::All),
            Some("store") => Ok(Kinds::Store),
            Some(other) => Err(format!("'{other}' is no value for '--kinds': store or all")),
        }
    }

    /// Takes out everything after a name.
    pub fn rest(&mut self, name: &str) -> Vec<String> {
        match self.words.iter().position(|word| word == name) {
            None => Vec::new(),
            Some(at) => self.words.split_off(at).split_off(1),
        }
    }

    /// The one file, if any; nothing else may be left.
    pub fn file(&mut self) -> Result<Option<PathBuf>, String> {
        let file = (!self.words.is_empty()).then(|| self.words.remove(0));
        self.end()?;
        match file {
            Some(name) if name.starts_with("--") => Err(format!("unknown option '{name}'")),
            file => Ok(file.map(PathBuf::from)),
        }
    }

    pub fn end(&self) -> Result<(), String> {
        match self.words.first() {
            None => Ok(()),
            Some(word) => Err(format!("'{word}' is too much")),
        }
    }
}
