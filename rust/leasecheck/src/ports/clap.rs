//! `clap` in the form that the program calls: passed an allocator, with errors for want of memory, and with matches that are parts
//! of the words. What it does is Cargo's `clap`, which can't say that there is no memory: the process ends there.
extern crate clap as clap_itself;
extern crate std;

use crate::memory::finding_memory;
use core::fmt;
use core::marker::PhantomData;
use smblease_std::alloc::{AllocError, Global};
use std::boxed::Box;
use std::string::{String, ToString};

pub use clap_itself::ArgAction;

/// What kind of error it is.
pub mod error {
    /// The kinds that the program tells apart.
    #[derive(Clone, Copy, Debug, PartialEq, Eq)]
    pub enum ErrorKind {
        /// There is no memory.
        OutOfMemory,
        /// Help was asked for.
        DisplayHelp,
        /// The version was asked for.
        DisplayVersion,
        /// The words ask for nothing that there is.
        Other,
    }
}

use error::ErrorKind;

/// An argument of a command.
#[derive(Debug)]
pub struct Arg<'a> {
    held: clap_itself::Arg,
    of: PhantomData<&'a str>,
}

impl<'a> Arg<'a> {
    /// An argument of this name.
    pub fn new(_alloc: Global, name: &'a str) -> Arg<'a> {
        Arg { held: finding_memory(|| clap_itself::Arg::new(name.to_string())), of: PhantomData }
    }

    fn with(self, change: impl FnOnce(clap_itself::Arg) -> clap_itself::Arg) -> Arg<'a> {
        Arg { held: finding_memory(|| change(self.held)), of: PhantomData }
    }

    /// Whether it has to be given.
    pub fn required(self, is_required: bool) -> Arg<'a> {
        self.with(|arg| arg.required(is_required))
    }

    /// What help says of it.
    pub fn help(self, text: &'a str) -> Arg<'a> {
        self.with(|arg| arg.help(text.to_string()))
    }

    /// It is an option of this name.
    pub fn long(self, name: &'a str) -> Arg<'a> {
        self.with(|arg| arg.long(name.to_string()))
    }

    /// What is done where it is given.
    pub fn action(self, action: ArgAction) -> Arg<'a> {
        self.with(|arg| arg.action(action))
    }

    /// It is one of these words.
    pub fn value_parser(self, words: &'a [&'a str]) -> Arg<'a> {
        self.with(|arg| {
            arg.value_parser(clap_itself::builder::PossibleValuesParser::new(words.iter().map(|word| word.to_string())))
        })
    }
}

/// A command.
#[derive(Debug)]
pub struct Command<'a> {
    held: clap_itself::Command,
    of: PhantomData<&'a str>,
}

impl<'a> Command<'a> {
    /// A command of this name.
    pub fn new(_alloc: Global, name: &'a str) -> Command<'a> {
        Command { held: finding_memory(|| clap_itself::Command::new(name.to_string())), of: PhantomData }
    }

    fn with(self, change: impl FnOnce(clap_itself::Command) -> clap_itself::Command) -> Command<'a> {
        Command { held: finding_memory(|| change(self.held)), of: PhantomData }
    }

    /// What lists of commands say of it.
    pub fn about(self, text: &'a str) -> Command<'a> {
        self.with(|command| command.about(text.to_string()))
    }

    /// What its help says first.
    pub fn long_about(self, text: &'a str) -> Command<'a> {
        self.with(|command| command.long_about(text.to_string()))
    }

    /// What its help says last.
    pub fn after_long_help(self, text: &'a str) -> Command<'a> {
        self.with(|command| command.after_long_help(text.to_string()))
    }

    /// Its version.
    pub fn version(self, text: &'a str) -> Command<'a> {
        self.with(|command| command.version(text.to_string()))
    }

    /// Whether there is no command `help`.
    pub fn disable_help_subcommand(self, is_disabled: bool) -> Command<'a> {
        self.with(|command| command.disable_help_subcommand(is_disabled))
    }

    /// Whether a command has to be given.
    pub fn subcommand_required(self, is_required: bool) -> Command<'a> {
        self.with(|command| command.subcommand_required(is_required))
    }

    /// With an argument more.
    pub fn arg(self, arg: Arg<'a>) -> Result<Command<'a>, AllocError> {
        Ok(self.with(|command| command.arg(arg.held)))
    }

    /// With a command more.
    pub fn subcommand(self, other: Command<'a>) -> Result<Command<'a>, AllocError> {
        Ok(self.with(|command| command.subcommand(other.held)))
    }

    /// What these words ask for, the program's name first.
    pub fn try_get_matches_from(self, words: &'a [&'a str]) -> Result<ArgMatches<'a>, Error> {
        finding_memory(|| match self.held.try_get_matches_from(words.iter().copied()) {
            Ok(found) => Ok(ArgMatches::of(found, words)),
            Err(error) => Err(Error::Of(error)),
        })
    }
}

/// Why words ask for nothing, or that they ask for help or the version.
#[derive(Debug)]
pub enum Error {
    /// There is no memory.
    Memory,
    /// An error of `clap`.
    Of(clap_itself::Error),
}

impl From<AllocError> for Error {
    fn from(_error: AllocError) -> Error {
        Error::Memory
    }
}

impl Error {
    /// Its kind.
    pub fn kind(&self) -> ErrorKind {
        let Error::Of(error) = self else { return ErrorKind::OutOfMemory };
        match error.kind() {
            clap_itself::error::ErrorKind::DisplayHelp => ErrorKind::DisplayHelp,
            clap_itself::error::ErrorKind::DisplayVersion => ErrorKind::DisplayVersion,
            _ => ErrorKind::Other,
        }
    }
}

impl fmt::Display for Error {
    fn fmt(&self, f: &mut fmt::Formatter<'_>) -> fmt::Result {
        match self {
            Error::Memory => f.write_str("out of memory"),
            Error::Of(error) => finding_memory(|| error.fmt(f)),
        }
    }
}

/// What was found. Its texts are parts of the words.
#[derive(Debug)]
pub struct ArgMatches<'a> {
    found: clap_itself::ArgMatches,
    words: &'a [&'a str],
    below: Option<(String, Box<ArgMatches<'a>>)>,
}

impl<'a> ArgMatches<'a> {
    fn of(mut found: clap_itself::ArgMatches, words: &'a [&'a str]) -> ArgMatches<'a> {
        let below = found.remove_subcommand().map(|(name, found)| (name, Box::new(ArgMatches::of(found, words))));
        ArgMatches { found, words, below }
    }

    /// The text of an argument; of a flag `true` or `false`.
    pub fn get_str(&self, name: &str) -> Option<&'a str> {
        finding_memory(|| self.text_of(name))
    }

    fn text_of(&self, name: &str) -> Option<&'a str> {
        if let Ok(flag) = self.found.try_get_one::<bool>(name) {
            return flag.map(|is_given| if *is_given { "true" } else { "false" });
        }
        let text = self.found.try_get_one::<String>(name).ok().flatten()?;
        let word = self.words.iter().find(|word| word.ends_with(text.as_str()))?;
        Some(&word[word.len() - text.len()..])
    }

    /// The command, and what was found behind it.
    pub fn subcommand(&self) -> Option<(&str, &ArgMatches<'a>)> {
        self.below.as_ref().map(|(name, found)| (name.as_str(), &**found))
    }
}
