// Made from crates/pair_chart/src/options.rt by rust/translate: change it there.
//! What the arguments ask for.

use smoltcp_proved::kit::env;
use smoltcp_proved::kit::{HostRuntime, String};
use smoltcp_proved::proved::script_chart::picture::Picture;
use smoltcp_proved::proved::script_program::fault::Fault;
use smoltcp_proved::proved::sock_pair::Side;

/// The arguments that the program takes.
pub const USAGE: &str = "pair_chart [--relative] [--sequence a|b] [FILE]";

/// What the arguments ask for.
pub enum Task {
    /// The text of `--help`.
    Help,
    /// A picture of the script of a file, or of standard input where none is named.
    Draw(Picture, Option<String>),
}

/// Reads the arguments: options and the file in any order, each once.
pub fn task_of(rt: &HostRuntime) -> Result<Task, Fault> {
    let Ok(mut args) = env::args(rt) else {
        return Err(Fault::Memory);
    };
    let _program = args.next();
    let mut options = Options::new();
    for word in args {
        if word.as_str() == "--help" {
            return Ok(Task::Help);
        }
        options.take(word)?;
    }
    options.into_task()
}

/// What the words of the arguments said so far.
pub struct Options {
    relative: bool,
    sequence: Sequence,
    file: Option<String>,
}

// Whether a side's sequence numbers were asked for, and whose.
#[derive(Clone, Copy)]
enum Sequence {
    None,
    SideToCome,
    Of(Side),
}

// What a word of the arguments stands for.
#[derive(Clone, Copy)]
enum Word {
    Relative,
    Sequence,
    Side(Side),
    File,
}

impl Options {
    /// No word was read.
    pub fn new() -> Options {
        Options { relative: false, sequence: Sequence::None, file: None }
    }

    /// Reads one word more, which is refused where it is none, or was there before.
    pub fn take(&mut self, word: String) -> Result<(), Fault> {
        match (self.word_of(word.as_str())?, self.sequence) {
            (Word::Relative, _) if !self.relative => self.relative = true,
            (Word::Sequence, Sequence::None) => self.sequence = Sequence::SideToCome,
            (Word::Side(side), _) => self.sequence = Sequence::Of(side),
            (Word::File, _) if self.file.is_none() => self.file = Some(word),
            _ => return Err(Fault::Usage(USAGE)),
        }
        Ok(())
    }

    // A file's name does not begin with `--`.
    fn word_of(&self, word: &str) -> Result<Word, Fault> {
        if matches!(self.sequence, Sequence::SideToCome) {
            Ok(Word::Side(side_of(word)?))
        } else if word == "--relative" {
            Ok(Word::Relative)
        } else if word == "--sequence" {
            Ok(Word::Sequence)
        } else if !word.starts_with("--") {
            Ok(Word::File)
        } else {
            Err(Fault::Usage(USAGE))
        }
    }

    /// What all words ask for. Sequence numbers over time count from the SYN in any case.
    pub fn into_task(self) -> Result<Task, Fault> {
        let Options { relative, sequence, file } = self;
        match sequence {
            Sequence::None => Ok(Task::Draw(Picture::Chart { relative }, file)),
            Sequence::Of(side) => Ok(Task::Draw(Picture::Sequence(side), file)),
            Sequence::SideToCome => Err(Fault::Usage(USAGE)),
        }
    }
}

fn side_of(word: &str) -> Result<Side, Fault> {
    if word == "a" || word == "A" {
        Ok(Side::A)
    } else if word == "b" || word == "B" {
        Ok(Side::B)
    } else {
        Err(Fault::Usage(USAGE))
    }
}
