//! The words and options after a command.

use crate::{files, Failure};
use std::ffi::{OsStr, OsString};
use std::path::{Path, PathBuf};

/// Where a command writes a table and a picture beside what it prints.
#[derive(Default)]
pub struct Outputs<'a> {
    csv: Option<&'a Path>,
    svg: Option<&'a Path>,
}

impl Outputs<'_> {
    /// Makes and writes what is asked for.
    pub fn write(&self, csv: impl FnOnce() -> String, svg: impl FnOnce() -> String) -> Result<(), Failure> {
        if let Some(path) = self.csv {
            files::write(path, &csv())?;
        }
        if let Some(path) = self.svg {
            files::write(path, &svg())?;
        }
        Ok(())
    }
}

/// What stands after a command, taken apart.
pub struct Arguments {
    words: Vec<OsString>,
    options: Vec<(&'static str, OsString)>,
    flags: Vec<&'static str>,
}

impl Arguments {
    /// `options` take a value each, `flags` none.
    pub fn of(given: &[OsString], options: &[&'static str], flags: &[&'static str]) -> Result<Arguments, Failure> {
        let mut taken = Arguments { words: Vec::new(), options: Vec::new(), flags: Vec::new() };
        let mut given = given.iter();
        while let Some(word) = given.next() {
            if let Some(option) = options.iter().copied().find(|option| word == *option) {
                let value = given.next().filter(|value| !is_option(value));
                let Some(value) = value else { return Err(Failure::usage(format!("{option} needs a value"))) };
                if taken.option(option).is_some() {
                    return Err(Failure::usage(format!("{option} is given twice")));
                }
                taken.options.push((option, value.clone()));
            } else if let Some(flag) = flags.iter().copied().find(|flag| word == *flag) {
                taken.flags.push(flag);
            } else if is_option(word) {
                return Err(Failure::usage(format!("unknown option '{}'", word.to_string_lossy())));
            } else {
                taken.words.push(word.clone());
            }
        }
        Ok(taken)
    }

    pub fn option(&self, name: &str) -> Option<&Path> {
        self.options.iter().find(|(option, _)| *option == name).map(|(_, value)| Path::new(value))
    }

    pub fn has(&self, flag: &str) -> bool {
        self.flags.contains(&flag)
    }

    /// The words, as paths.
    pub fn paths(&self) -> Vec<PathBuf> {
        self.words.iter().map(PathBuf::from).collect()
    }

    /// The files that these options name to be written. None is one of the words, which are read, or named before: a row is never written over what
    /// it was made of.
    pub fn outputs<const N: usize>(&self, options: [&'static str; N]) -> Result<[Option<&Path>; N], Failure> {
        let mut named = self.paths();
        for option in options {
            let Some(out) = self.option(option) else { continue };
            if named.iter().any(|other| files::same(out, other)) {
                return Err(Failure::usage(format!("{option} names a file that is named before")));
            }
            named.push(out.to_path_buf());
        }
        Ok(options.map(|option| self.option(option)))
    }

    /// The files that --csv and --svg name.
    pub fn table_and_picture(&self) -> Result<Outputs<'_>, Failure> {
        let [csv, svg] = self.outputs(["--csv", "--svg"])?;
        Ok(Outputs { csv, svg })
    }

    /// The words where there are exactly as many as the command takes, which are `wanted`.
    pub fn exactly<const N: usize>(&self, wanted: &str) -> Result<[PathBuf; N], Failure> {
        let found = self.words.len();
        self.paths().try_into().map_err(|_| Failure::usage(format!("{wanted} expected, {found} given")))
    }
}

fn is_option(word: &OsStr) -> bool {
    word.len() > 1 && word.as_encoded_bytes().starts_with(b"-")
}
