//! The words of --help, made of the tables of commands and options.
use crate::args::{Choice, CHOICES};
use crate::commands::{Command, COMMANDS};
use std::fmt::Write;

/// Lines are broken behind so many columns.
const WIDTH: usize = 120;
/// Where the right column begins.
const RIGHT: usize = 30;

const MORE: &str = "\
FILE, OLD, EDITS and the file of --names may be - for standard input. Bytes that a terminal would obey are shown as \\xNN.
EDITS has one edit a line: 'update NAME ID [PEELED]' or 'delete NAME'. Blank lines and lines that begin with # are skipped.
A file that is not there is no answer. Only merge -o takes an OLD that is not there for an empty one, if NEW is not there either.
A file that changes while it is read is read anew, and is no answer if it goes on changing. A lock is waited for, for a second.
";

/// What nobody can see in the file itself.
const UNSEEN: &str = "\
What the check can't see, so that a name that was charted may be called absent:
  a file that was cut at a line end; lines that were taken out; an older file that was put back;
  a letter of a name that was changed so that the order still holds; a header line that ran into the first record;
  loose references beside the file, which Git looks at first.
check and merge say how many records there are: keep that number, and ask with lookup --records N.
";

const STATUS: &str = "\
exit status:
  0   charted, passed, done. If standard error says that what is charted stands in a damaged file, call someone.
  1   absent; merge: nothing to do
  2   no answer: unreadable or refused, for a reason given on standard error. Do not send.
      report gives the damaged lines on standard output
  64  wrong usage
With several names the worst answer decides. NUMBERS.md explains the numbers.
";

pub fn all() -> String {
    let mut help =
        "packed-refs: asks, checks, lists and merges Git's packed-refs files\n\nusage: packed-refs COMMAND [OPTION..] ..\n\n".to_string();
    for command in COMMANDS {
        row(&mut help, &format!("{} {}", command.name, command.words), command.about);
    }
    row(&mut help, "help [COMMAND]", "this, or what a command does and takes; so does COMMAND --help");
    help.push_str("\noptions, which may stand anywhere; behind -- no word is one:\n");
    CHOICES.iter().for_each(|choice| option(&mut help, choice));
    row(&mut help, "-h, --help, -V, --version", "");
    format!("{help}\n{MORE}\n{UNSEEN}\n{STATUS}")
}

pub fn of(command: &Command) -> String {
    let mut help = format!("usage: packed-refs {} [OPTION..] {}\n\n", command.name, command.words);
    wrapped(&mut help, 0, command.about);
    help.push_str("\noptions:\n");
    CHOICES.iter().filter(|choice| choice.is_of(command.name)).for_each(|choice| option(&mut help, choice));
    format!("{help}\n{MORE}\n{UNSEEN}\n{STATUS}")
}

fn option(help: &mut String, choice: &Choice) {
    let short = choice.short.map_or(String::new(), |short| format!("-{}, ", char::from(short)));
    let value = choice.value.map_or(String::new(), |value| format!(" {value}"));
    row(help, &format!("{short}--{}{value}", choice.long), choice.about);
}

/// A line with two columns; the right one goes on below.
fn row(help: &mut String, left: &str, right: &str) {
    let _ = write!(help, "  {left:<0$}", RIGHT - 2);
    if left.len() > RIGHT - 4 {
        let _ = write!(help, "\n{:RIGHT$}", "");
    }
    wrapped(help, RIGHT, right);
}

/// Text that goes on below at a column.
fn wrapped(help: &mut String, column: usize, text: &str) {
    let mut at = column;
    for word in text.split(' ') {
        if at > column && at + 1 + word.len() > WIDTH {
            let _ = write!(help, "\n{:column$}", "");
            at = column;
        } else if at > column {
            help.push(' ');
            at += 1;
        }
        help.push_str(word);
        at += word.len();
    }
    while help.ends_with(' ') {
        help.pop();
    }
    help.push('\n');
}
