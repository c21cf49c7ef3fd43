//! The subcommands. Each reads its files, calls the library, and writes.

mod files;
mod forms;
mod listing;

use files::{Output, STANDARD};
use forms::Form;
use glouds::owned::{self, MOST_IMAGE_BYTES, MOST_TABLE_WORDS};
use glouds::{refusals, Tally};
use std::ffi::{OsStr, OsString};
use std::fmt;

const HELP: &str = "\
glouds packs directed graphs in the GLOUDS form and answers questions on them.

  glouds pack TABLE IMAGE [ORDER]   packs a table; ORDER receives the order list
  glouds check IMAGE                tells whether an image is proper
  glouds unpack IMAGE TABLE         writes the image's table, in level order
  glouds ask [--binary] IMAGE [QUESTIONS [ANSWERS]]
                                    answers a batch of questions
  glouds list [--long] TABLE        prints every node's operands and users
  glouds same IMAGE IMAGE           compares two proper images byte by byte
  glouds help                       prints this

A file called - is standard input or standard output. QUESTIONS and ANSWERS are
- where they are left out.

Tables and order lists are 16-bit words, low byte first. A question is a line of
three numbers, kind a b, and its answer a line of three, code value sort; with
--binary both are runs of 32-bit words, low byte first.

list refuses an odd number of bytes, or more than 8,000, with 61, as the listing
program does; --long drops the limit of 8,000. It also prints its refusals.

Exit status 0: done. 1: refused, with the number and its words on standard
error; or two images differ, with the first byte, counted from 0, where they do.
2: wrong use, or a file that cannot be read or written. A file is written whole
or not at all: after any error the old one stays.
";

/// The most bytes of a table that the listing program takes.
const MOST_LISTED: u64 = 8_000;
/// A table longer than this is refused whatever follows: its words and one more.
const TABLE_READ: u64 = 2 * (MOST_TABLE_WORDS as u64 + 1);
/// An image longer than this is refused whatever follows.
const IMAGE_READ: u64 = MOST_IMAGE_BYTES as u64 + 1;
/// The most bytes of questions, a limit of this command's own.
const MOST_QUESTIONS: u64 = 1 << 30;

/// Why the command did not do what was asked.
pub enum Failure {
    /// A refusal of a file, by its number.
    Refused(OsString, u32),
    /// The first byte in which two images differ.
    Different(OsString, OsString, usize),
    /// Wrong use, or a file that cannot be read or written.
    Trouble(String),
}

impl Failure {
    /// The exit status.
    pub fn status(&self) -> u8 {
        match self {
            Failure::Refused(..) | Failure::Different(..) => 1,
            Failure::Trouble(_) => 2,
        }
    }
}

impl fmt::Display for Failure {
    fn fmt(&self, f: &mut fmt::Formatter) -> fmt::Result {
        match self {
            Failure::Refused(file, number) => {
                let words = refusals::words(*number).unwrap_or("unknown number");
                write!(f, "{}: refused {number}: {words}", file.display())
            }
            Failure::Different(one, other, place) => {
                let (one, other) = (one.display(), other.display());
                write!(f, "{one} and {other} differ at byte {place}")
            }
            Failure::Trouble(words) => f.write_str(words),
        }
    }
}

type Done = Result<(), Failure>;

/// Runs the command. An option stands right after the subcommand.
pub fn run(arguments: &[OsString]) -> Done {
    let arguments: Vec<&OsStr> = arguments.iter().map(OsString::as_os_str).collect();
    let [name, rest @ ..] = &arguments[..] else {
        return Err(wrong_use());
    };
    let (option, files) = match rest {
        [option, files @ ..] if is_option(option) => (option.to_str(), files),
        files => (Some(""), files),
    };
    if files.iter().any(|file| is_option(file)) {
        return Err(wrong_use());
    }
    match (name.to_str(), option, files) {
        (Some("help" | "--help"), Some(""), []) | (_, Some("--help"), _) => help(),
        (Some("pack"), Some(""), [table, image]) => pack(table, image, None),
        (Some("pack"), Some(""), [table, image, order]) => pack(table, image, Some(order)),
        (Some("check"), Some(""), [image]) => check(image),
        (Some("unpack"), Some(""), [image, table]) => unpack(image, table),
        (Some("ask"), Some(""), files) => ask(files, Form::Text),
        (Some("ask"), Some("--binary"), files) => ask(files, Form::Binary),
        (Some("list"), Some(""), [table]) => list(table, MOST_LISTED),
        (Some("list"), Some("--long"), [table]) => list(table, u64::MAX),
        (Some("same"), Some(""), [one, other]) => same(one, other),
        _ => Err(wrong_use()),
    }
}

fn is_option(argument: &OsStr) -> bool {
    argument.as_encoded_bytes().starts_with(b"-") && argument != STANDARD
}

fn wrong_use() -> Failure {
    Failure::Trouble("wrong use: `glouds help` shows the commands and their files".into())
}

/// Two files that must not be one: standard input cannot be read twice, and
/// one file cannot hold two outputs.
fn apart(one: &OsStr, other: &OsStr) -> Done {
    if one != other {
        return Ok(());
    }
    let words = format!("wrong use: {} stands for two files", one.display());
    Err(Failure::Trouble(words))
}

/// A refusal of a file.
fn refused(file: &OsStr) -> impl Fn(u32) -> Failure + '_ {
    move |number| Failure::Refused(file.into(), number)
}

fn help() -> Done {
    files::write(&[Output::new(OsStr::new(STANDARD), HELP.as_bytes())])
}

/// Reads a table; an odd number of bytes is no table at all.
fn read_table(file: &OsStr) -> Result<Vec<u16>, Failure> {
    let (bytes, length) = files::read_counted(file, TABLE_READ)?;
    if length % 2 == 1 {
        let words = format!("{}: a table has an even number of bytes", file.display());
        return Err(Failure::Trouble(words));
    }
    Ok(forms::table(&bytes))
}

fn pack(table: &OsStr, image: &OsStr, order: Option<&OsStr>) -> Done {
    if let Some(order) = order {
        apart(image, order)?;
    }
    let (numbers, bytes) = owned::pack(&read_table(table)?).map_err(refused(table))?;
    let numbers = forms::table_bytes(&numbers);
    let mut outputs = vec![Output::new(image, &bytes)];
    outputs.extend(order.map(|order| Output::new(order, &numbers)));
    files::write(&outputs)
}

/// Reads an image and checks it.
fn read_image(file: &OsStr) -> Result<Vec<u8>, Failure> {
    let image = files::read(file, IMAGE_READ)?;
    match glouds::check(&image) {
        0 => Ok(image),
        number => Err(refused(file)(number)),
    }
}

fn check(image: &OsStr) -> Done {
    read_image(image).map(|_| ())
}

fn unpack(image: &OsStr, table: &OsStr) -> Done {
    let bytes = files::read(image, IMAGE_READ)?;
    let words = owned::unpack(&bytes).map_err(refused(image))?;
    files::write(&[Output::new(table, &forms::table_bytes(&words))])
}

fn ask(files: &[&OsStr], form: Form) -> Done {
    let standard = OsStr::new(STANDARD);
    let (image, questions, answers) = match *files {
        [image] => (image, standard, standard),
        [image, questions] => (image, questions, standard),
        [image, questions, answers] => (image, questions, answers),
        _ => return Err(wrong_use()),
    };
    if image == standard {
        apart(image, questions)?;
    }
    let bytes = files::read(image, IMAGE_READ)?;
    let asked = read_questions(questions, form)?;
    let given = owned::ask(&bytes, &asked, &mut Tally::default()).map_err(|number| {
        let file = if number == 41 { questions } else { image };
        refused(file)(number)
    })?;
    files::write(&[Output::new(answers, &form.write(&given))])
}

/// Reads questions as words.
fn read_questions(file: &OsStr, form: Form) -> Result<Vec<u32>, Failure> {
    let bytes = files::read(file, MOST_QUESTIONS + 1)?;
    let read = if bytes.len() as u64 > MOST_QUESTIONS {
        Err(format!("more than {MOST_QUESTIONS} bytes of questions"))
    } else {
        form.read(&bytes)
    };
    read.map_err(|words| Failure::Trouble(format!("{}: {words}", file.display())))
}

/// Prints the listing of a table of at most so many bytes. A refusal is printed
/// too, as the listing program does.
fn list(table: &OsStr, most: u64) -> Done {
    let (bytes, length) = files::read_counted(table, TABLE_READ)?;
    let text = if length % 2 == 1 || length > most {
        Err(61)
    } else {
        listing::text(&forms::table(&bytes))
    };
    let shown = match &text {
        Ok(text) => text,
        Err(number) => &format!("refused {number}\n"),
    };
    files::write(&[Output::new(OsStr::new(STANDARD), shown.as_bytes())])?;
    text.map(|_| ()).map_err(refused(table))
}

/// Compares two images. Both must be proper: two files that were cut at the
/// same byte are no two equal images.
fn same(one: &OsStr, other: &OsStr) -> Done {
    if one == STANDARD {
        apart(one, other)?;
    }
    let [first, second] = [read_image(one)?, read_image(other)?];
    if first == second {
        return Ok(());
    }
    let pairs = first.iter().zip(&second);
    let place = pairs.take_while(|(byte, other)| byte == other).count();
    Err(Failure::Different(one.into(), other.into(), place))
}
