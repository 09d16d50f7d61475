// Made by tools/plain_rust from crates/leasecheck/src/run.rt. Changes belong there.

use std::prelude::{AllocGlobal, Input, String, Vec};

use crate::proved::lease_lines::Machines;
use crate::proved::leasecheck::command_line::asked;
use crate::proved::leasecheck::conversing::converse;
use crate::proved::leasecheck::failure::Failure;
use crate::proved::leasecheck::printing::{perform, print_text, tell_failure, tell_refusal};
use crate::proved::leasecheck::refusal::Refusal;
use crate::proved::leasecheck::tasks::{Asked, Task, Usage};
use std::alloc::{AllocError, Global};
use std::io::{BufReader, Write};
use std::rt::Files;
use std::{fs, io};

// The exit status where a command line is refused.
const REFUSED: u8 = 2;

fn views<'a>(alloc: Global, words: &'a [String]) -> Result<Vec<&'a str>, AllocError> {
    let mut views = Vec::new(alloc);
    for word in words {
        views.push(word.as_str())?;
    }
    Ok(views)
}

// Help goes to `out`, with status 1 and a line on `faults` where it can't be written; why there is no task goes to `faults`, with status 1 where that is
// want of memory.
fn tell_usage<O: Write, F: Write>(usage: &Usage, out: &mut O, faults: &mut F) -> u8 {
    match usage {
        Usage::Help(text) => match print_text(text.as_str(), out) {
            Ok(()) => 0,
            Err(failure) => {
                let _ = tell_failure(failure, faults);
                1
            }
        },
        Usage::Refused(text) => {
            let _ = faults.write_all(text.as_bytes());
            REFUSED
        }
        Usage::Memory => {
            let _ = tell_failure(Failure::Memory, faults);
            1
        }
    }
}

// Does a task with the bytes of its file, which it opens.
fn perform_on_file<R: Files + Input + AllocGlobal, O: Write, F: Write>(rt: &R, asked: &Task, out: &mut O, faults: &mut F) -> u8 {
    let alloc = rt.alloc();
    match asked.path() {
        None => {
            let mut nothing: &[u8] = &[];
            perform(alloc, asked, &mut nothing, out, faults)
        }
        Some("-") => perform(alloc, asked, &mut rt.reader(), out, faults),
        Some(path) => match fs::open(rt, path) {
            Ok(mut file) => perform(alloc, asked, &mut file, out, faults),
            Err(error) => {
                let refusal = Refusal::bare(Failure::of_reading(error.kind()));
                let _ = tell_refusal(&refusal.of_task(alloc, asked), faults);
                1
            }
        },
    }
}

// Lets machines speak on standard input and output, and say on the other stream why lines are refused. The input is read in
// blocks: a pipe by itself is read a byte at a time.
fn speak<R: Input + AllocGlobal, O: Write, F: Write>(rt: &R, machines: Machines, out: &mut O, faults: &mut F) -> u8 {
    let spoken = match BufReader::new(rt.alloc(), rt.reader()) {
        Ok(mut input) => converse(rt.alloc(), machines, &mut input, out, faults),
        Err(_) => Err(Failure::Memory),
    };
    match spoken {
        Ok(()) => 0,
        Err(failure) => {
            let _ = tell_failure(failure, faults);
            1
        }
    }
}

/// Does what the words of a command line ask for, those after the program's name, and returns the
/// exit status: 0 where it was done or help was printed, 1 where the input is refused, memory ran
/// out or a write failed, 2 where the words are refused, 3 where a judged record or capture is unsafe, 4 where nothing of a capture
/// is judged.
///
/// What is printed with status 0, 3 or 4 is what the words ask for. With these nothing goes to `faults`, but for why machines refuse
/// lines.
///
/// Where the words can't be had, since one is no text or there is no memory for them, they are
/// refused too.
pub fn run_words<R: Files + Input + AllocGlobal, O: Write, F: Write>(
    rt: &R,
    given: io::Result<Vec<String>>,
    out: &mut O,
    faults: &mut F,
) -> u8 {
    let Ok(owned) = given else {
        let _ = writeln!(faults, "error: an argument is no text, or there is no memory for it");
        return REFUSED;
    };
    let Ok(words) = views(rt.alloc(), owned.as_slice()) else {
        let _ = tell_failure(Failure::Memory, faults);
        return 1;
    };
    match asked(rt.alloc(), words.as_slice()) {
        Err(usage) => tell_usage(&usage, out, faults),
        Ok(Asked::Task(task)) => perform_on_file(rt, &task, out, faults),
        Ok(Asked::Clients) => speak(rt, Machines::clients(rt.alloc()), out, faults),
        Ok(Asked::Server) => speak(rt, Machines::server(), out, faults),
    }
}
