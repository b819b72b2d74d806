//! The command line tool: units in, code, drawings and refusals out.

use std::ffi::OsString;
use std::fmt::Write as _;
use std::fs;
use std::io::{self, Read, Write};
use std::iter;
use std::process::ExitCode;

use delzhomo::{
    Assembler, Instruction, Instructions, Listing, Loc, Nodes, Place, Refusal, Stored, Unit, check,
    measure, path_text, view,
};

const HELP: &str = "\
usage: delzhomo COMMAND FILE [OPTION..]

Assembles script units. FILE is a unit, as raw bytes or in commented hexadecimal; - is standard input.

  stage FILE      the unit's code with jump distances
  labelled FILE   the same before the jumps are resolved: label numbers, then the label table
  stored FILE     the code as the game's loader stores it: each distance less 3, 5 or 11, by instruction and field
  restored FILE   the code with jump distances again; FILE is a listing as the loader stores it, not a unit
  check FILE      whether the unit has code: how many records and labels, and the total size
  view FILE N     record N of the code, from 0 on
  draw FILE       the code with arrows from each jump to where it lands
  strip FILE      the unit without its pool indices, lines and constants, in hexadecimal, to be read as FILE again;
                  one that cannot be read is stripped as far as it is read

  --hex, --raw    FILE is hexadecimal, or raw bytes (else its content decides)
  --listing       stored, check, view, draw: FILE is a listing with distances, not a unit
  --bytes         stage, labelled, stored, restored, strip: write the listing or the unit itself
  --nodes         all but restored, check and strip, of a unit: beside each instruction the nodes down to the one that
                  emitted it
  --ascii         draw: no box characters
  --columns N     draw: at most N columns of arrows
  --help          this text

A line of code has start, tag, small, first, second, line, flags and value. A refusal is printed as `refused` and its
number, place and extra number, and explained on standard error.

Status: 0 without a refusal, 1 refused, 2 wrong usage or a file that cannot be read.
";

fn main() -> ExitCode {
    let mut out = Vec::new();
    let ending = run(&mut out);
    let written = print(&out, &ending);
    match (ending, written) {
        (_, Err(error)) => complain(&format!("standard output: {error}"), 2),
        (Ok(()), Ok(())) => ExitCode::SUCCESS,
        (Err(Failure::Refused { said, .. }), Ok(())) => complain(&said, 1),
        (Err(Failure::Usage(said)), Ok(())) => complain(&format!("{said}; --help says more"), 2),
        (Err(Failure::File(said)), Ok(())) => complain(&said, 2),
    }
}

/// The output, or the refusal in document 01's form.
fn print(out: &[u8], ending: &Result<(), Failure>) -> io::Result<()> {
    let mut stdout = io::stdout().lock();
    match ending {
        Err(Failure::Refused { refusal, .. }) => writeln!(stdout, "{}", refusal.line())?,
        _ => stdout.write_all(out)?,
    }
    stdout.flush()
}

fn complain(said: &str, status: u8) -> ExitCode {
    // where standard error is closed too there is nobody left to tell
    let _ = writeln!(io::stderr(), "delzhomo: {said}");
    ExitCode::from(status)
}

/// Why there is no output.
enum Failure {
    Usage(String),
    File(String),
    Refused { refusal: Refusal, said: String },
}

impl From<Refusal> for Failure {
    fn from(refusal: Refusal) -> Self {
        Self::Refused {
            refusal,
            said: refusal.to_string(),
        }
    }
}

type Outcome<T = ()> = Result<T, Failure>;

fn run(out: &mut Vec<u8>) -> Outcome {
    let Some(request) = Request::parse(std::env::args_os().skip(1))? else {
        out.extend_from_slice(HELP.as_bytes());
        return Ok(());
    };
    let bytes = decode(read(&request.file)?, &request)?;
    if request.listing {
        return on_listing(&request, Listing::from_bytes(&bytes)?, None, out);
    }
    if request.command == Command::Restored {
        let restored = Stored::from_bytes(bytes)?.restored()?;
        return on_listing(&request, Listing::from_bytes(&restored)?, None, out);
    }
    let unit = Unit::from_bytes(bytes);
    let mut assembler = Assembler::new();
    on_unit(&request, &unit, &mut assembler, out).map_err(|failure| explain(failure, &unit))
}

fn on_unit(
    request: &Request,
    unit: &Unit,
    assembler: &mut Assembler,
    out: &mut Vec<u8>,
) -> Outcome {
    let nodes = request.nodes.then(|| unit.nodes());
    let nodes = nodes.as_ref();
    match request.command {
        Command::Labelled => {
            let labelled = assembler.lower(unit)?;
            let text = with_paths(&labelled, labelled.iter(), nodes);
            put(request, labelled.bytes(), &text, out);
        }
        Command::Check => {
            assembler.assemble(unit)?;
            let totals = measure(unit)?;
            out.extend_from_slice(
                format!(
                    "records {} labels {} size {}\n",
                    totals.records, totals.labels, totals.size
                )
                .as_bytes(),
            );
        }
        Command::Strip => strip(request, unit, out),
        Command::Stage | Command::Stored | Command::View | Command::Draw => {
            on_listing(request, assembler.assemble(unit)?, nodes, out)?;
        }
        Command::Restored => {
            return Err(Failure::Usage("a unit is not a stored listing".into()));
        }
    }
    Ok(())
}

fn strip(request: &Request, unit: &Unit, out: &mut Vec<u8>) {
    let stripped = unit.stripped();
    put(request, stripped.bytes(), &stripped.to_hex(), out);
}

/// With the nodes of the unit that the listing was made from, if paths are asked for.
fn on_listing(
    request: &Request,
    listing: Listing<'_>,
    nodes: Option<&Nodes>,
    out: &mut Vec<u8>,
) -> Outcome {
    let text = match request.command {
        Command::Stage | Command::Restored => with_paths(&listing, listing.iter(), nodes),
        Command::Stored => return store(request, listing, nodes, out),
        Command::Check => format!("records {}\n", check(listing.bytes())?),
        Command::View => record(listing, request.number, nodes)?,
        Command::Draw => {
            let drawing = listing.draw().ascii(request.ascii);
            let drawing = nodes.map_or(drawing, |nodes| drawing.nodes(nodes));
            let columns = request.columns;
            columns
                .map_or(drawing, |columns| drawing.columns(columns))
                .to_string()
        }
        Command::Labelled | Command::Strip => {
            return Err(Failure::Usage("a listing is not a unit".into()));
        }
    };
    put(request, listing.bytes(), &text, out);
    Ok(())
}

fn store(
    request: &Request,
    listing: Listing<'_>,
    nodes: Option<&Nodes>,
    out: &mut Vec<u8>,
) -> Outcome {
    let stored = listing.stored()?;
    let text = with_paths(&stored, stored.iter(), nodes);
    put(request, stored.bytes(), &text, out);
    Ok(())
}

fn put(request: &Request, bytes: &[u8], text: &str, out: &mut Vec<u8>) {
    let content = if request.bytes {
        bytes
    } else {
        text.as_bytes()
    };
    out.extend_from_slice(content);
}

/// A listing as it is printed: a heading, a line an instruction, the label table if it has one. Where paths are asked for, that to an
/// instruction's node stands behind its line.
fn with_paths<L: Loc>(
    listing: &impl ToString,
    instructions: Instructions<'_, L>,
    nodes: Option<&Nodes>,
) -> String {
    let text = listing.to_string();
    let Some(nodes) = nodes else {
        return text;
    };
    let places = iter::once(None)
        .chain(instructions.map(|each| Some(each.node)))
        .chain(iter::repeat(None));
    let lines = text.lines().zip(places).map(|(line, place)| match place {
        Some(place) => beside(line, place, nodes),
        None => format!("{line}\n"),
    });
    lines.collect()
}

/// A line with the path to a node behind it.
fn beside(line: &str, place: u32, nodes: &Nodes) -> String {
    let path = nodes.path(place as usize);
    format!("{line}  {}\n", path_text(&path))
}

/// The line of a record. The library decides whether there is such a record.
fn record(listing: Listing<'_>, number: usize, nodes: Option<&Nodes>) -> Outcome<String> {
    view(listing.bytes(), number)?;
    let found: Option<Instruction> = listing.iter().nth(number);
    Ok(found.map_or(String::new(), |record| match nodes {
        Some(nodes) => beside(&record.to_string(), record.node, nodes),
        None => format!("{record}\n"),
    }))
}

/// Adds to a refusal what the unit shows of its place: the nodes down to it, or the instruction.
fn explain(failure: Failure, unit: &Unit) -> Failure {
    let Failure::Refused { refusal, mut said } = failure else {
        return failure;
    };
    match refusal.place() {
        Place::Unit(place) => {
            let path = unit.path(place);
            if !path.is_empty() {
                // writing to a String does not fail
                let _ = write!(said, "\n  path: {}", path_text(&path));
            }
        }
        Place::Record(number) => {
            let mut assembler = Assembler::new();
            let lowered = assembler.lower(unit).ok();
            if let Some(found) = lowered.and_then(|lowered| lowered.iter().nth(number)) {
                let path = unit.path(found.node as usize);
                let _ = write!(
                    said,
                    "\n  record {number}: {} at {}\n  path: {}",
                    found.tag,
                    found.start,
                    path_text(&path)
                );
            }
        }
        Place::Whole => {}
    }
    Failure::Refused { refusal, said }
}

#[derive(Clone, Copy, PartialEq, Eq)]
enum Command {
    Stage,
    Labelled,
    Stored,
    Restored,
    Check,
    View,
    Draw,
    Strip,
}

impl Command {
    fn parse(word: &str) -> Outcome<Self> {
        match word {
            "stage" => Ok(Self::Stage),
            "labelled" => Ok(Self::Labelled),
            "stored" => Ok(Self::Stored),
            "restored" => Ok(Self::Restored),
            "check" => Ok(Self::Check),
            "view" => Ok(Self::View),
            "draw" => Ok(Self::Draw),
            "strip" => Ok(Self::Strip),
            _ => Err(Failure::Usage(format!("no such command: {word}"))),
        }
    }
}

/// How the bytes stand in the file.
#[derive(Clone, Copy, PartialEq, Eq)]
enum Form {
    ByContent,
    Hex,
    Raw,
}

/// What the command line asks for.
struct Request {
    command: Command,
    file: OsString,
    number: usize,
    form: Form,
    listing: bool,
    bytes: bool,
    nodes: bool,
    ascii: bool,
    columns: Option<usize>,
}

impl Request {
    /// The request, or none if help is asked for.
    fn parse(words: impl Iterator<Item = OsString>) -> Outcome<Option<Self>> {
        let mut options = Options::default();
        if !options.take(words)? {
            return Ok(None);
        }
        let mut plain = std::mem::take(&mut options.plain).into_iter();
        let command = plain.next().ok_or_else(|| missing("COMMAND"))?;
        let command = Command::parse(&command.to_string_lossy())?;
        let file = plain.next().ok_or_else(|| missing("FILE"))?;
        let number = match command {
            Command::View => number(&plain.next().ok_or_else(|| missing("N"))?)?,
            _ => 0,
        };
        if let Some(extra) = plain.next() {
            let extra = extra.to_string_lossy();
            return Err(Failure::Usage(format!("one word too many: {extra}")));
        }
        options.fits(command)?;
        Ok(Some(Self {
            command,
            file,
            number,
            form: options.form.unwrap_or(Form::ByContent),
            listing: options.listing,
            bytes: options.bytes,
            nodes: options.nodes,
            ascii: options.ascii,
            columns: options.columns,
        }))
    }
}

/// The words of a command line: options, and the others in order.
#[derive(Default)]
struct Options {
    plain: Vec<OsString>,
    form: Option<Form>,
    listing: bool,
    bytes: bool,
    nodes: bool,
    ascii: bool,
    columns: Option<usize>,
}

impl Options {
    /// Sorts the words; false if help is asked for.
    fn take(&mut self, mut words: impl Iterator<Item = OsString>) -> Outcome<bool> {
        while let Some(word) = words.next() {
            match word.to_string_lossy().as_ref() {
                "--help" | "-h" => return Ok(false),
                "--hex" => self.form = Some(Form::Hex),
                "--raw" => self.form = Some(Form::Raw),
                "--listing" => self.listing = true,
                "--bytes" => self.bytes = true,
                "--nodes" => self.nodes = true,
                "--ascii" => self.ascii = true,
                "--columns" => {
                    let count = words.next().ok_or_else(|| missing("N of --columns"))?;
                    self.columns = Some(number(&count)?);
                }
                "--" => {
                    self.plain.extend(words);
                    return Ok(true);
                }
                text if text.starts_with('-') && text != "-" => {
                    return Err(Failure::Usage(format!("no such option: {text}")));
                }
                _ => self.plain.push(word),
            }
        }
        Ok(true)
    }

    /// An option that a command has no use for is a mistake, not a wish to be passed over.
    fn fits(&self, command: Command) -> Outcome {
        use Command::*;
        let prints = matches!(command, Stage | Labelled | Stored | Restored | Strip);
        let takes_listings = matches!(command, Stored | Check | View | Draw);
        let draws = command == Draw;
        // the nodes are the unit's, and a listing itself has no line to put them beside
        let has_lines =
            !matches!(command, Restored | Check | Strip) && !self.listing && !self.bytes;
        let misplaced = [
            ("--bytes", self.bytes && !prints),
            ("--listing", self.listing && !takes_listings),
            ("--nodes", self.nodes && !has_lines),
            ("--ascii", self.ascii && !draws),
            ("--columns", self.columns.is_some() && !draws),
        ];
        match misplaced.into_iter().find(|&(_, wrong)| wrong) {
            Some((option, _)) => Err(Failure::Usage(format!("{option} is not for this command"))),
            None => Ok(()),
        }
    }
}

fn missing(what: &str) -> Failure {
    Failure::Usage(format!("{what} is missing"))
}

fn number(word: &OsString) -> Outcome<usize> {
    let text = word.to_string_lossy();
    text.parse()
        .map_err(|_| Failure::Usage(format!("not a number: {text}")))
}

fn read(file: &OsString) -> Outcome<Vec<u8>> {
    let content = if file == "-" {
        let mut content = Vec::new();
        io::stdin()
            .lock()
            .read_to_end(&mut content)
            .map(|_| content)
    } else {
        fs::read(file)
    };
    content.map_err(|error| Failure::File(format!("{}: {error}", file.to_string_lossy())))
}

/// The bytes that the file stands for.
fn decode(content: Vec<u8>, request: &Request) -> Outcome<Vec<u8>> {
    let is_hex = match request.form {
        Form::Hex => true,
        Form::Raw => false,
        Form::ByContent => is_text(&content),
    };
    if !is_hex {
        return Ok(content);
    }
    let file = request.file.to_string_lossy();
    let text = String::from_utf8(content)
        .map_err(|_| Failure::File(format!("{file}: not hexadecimal: this is not text")))?;
    let unit = Unit::from_hex(&text).map_err(|error| Failure::File(format!("{file}: {error}")))?;
    Ok(unit.into_bytes())
}

/// Whether this is a text with something in it. A unit or a listing begins with the byte 01, which no text has.
fn is_text(content: &[u8]) -> bool {
    let is_plain = |found: char| !found.is_control() || found.is_ascii_whitespace();
    !content.is_empty() && str::from_utf8(content).is_ok_and(|text| text.chars().all(is_plain))
}
