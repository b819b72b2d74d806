//! A listing as text, with arrows from each jump to where it lands.
//!
//! Jumps that land on the same instruction share one arrow. An arrow has a column of its own as far as it reaches; shorter arrows
//! stand nearer to the text, so that an arrow inside another never crosses it. Each line then has the start, the name and the
//! fields that the instruction uses, jumps with their distance and the offset where they land; on request the nodes down to the one that
//! emitted it, in a column of their own.

use std::collections::BTreeMap;
use std::fmt::{self, Write};

use crate::listing::{Instruction, Listing};
use crate::path::{Nodes, path_text};
use crate::tag::ValueForm;

/// How many columns of arrows there are at most, unless asked for otherwise.
const COLUMNS: usize = 12;

/// How wide names are drawn.
const NAME_WIDTH: usize = 14;

/// A listing to be drawn: `Display` does it.
#[derive(Debug, Clone, Copy)]
pub struct Drawing<'a> {
    listing: Listing<'a>,
    columns: usize,
    ascii: bool,
    nodes: Option<&'a Nodes>,
}

impl<'a> Drawing<'a> {
    /// A drawing in box characters, with at most 12 columns of arrows.
    pub fn new(listing: Listing<'a>) -> Self {
        Self {
            listing,
            columns: COLUMNS,
            ascii: false,
            nodes: None,
        }
    }

    /// With at most so many columns of arrows. The shortest arrows are drawn; a jump without an arrow still has its distance.
    pub fn columns(self, columns: usize) -> Self {
        Self { columns, ..self }
    }

    /// In ASCII characters only, or not.
    pub fn ascii(self, ascii: bool) -> Self {
        Self { ascii, ..self }
    }

    /// With the path to each instruction's node beside it. These are the nodes of the unit that the listing was made from.
    pub fn nodes(self, nodes: &'a Nodes) -> Self {
        let nodes = Some(nodes);
        Self { nodes, ..self }
    }
}

impl fmt::Display for Drawing<'_> {
    fn fmt(&self, f: &mut fmt::Formatter<'_>) -> fmt::Result {
        let rows = Rows::new(self.listing);
        let glyphs = if self.ascii { &ASCII } else { &BOX };
        let mut columns = place(rows.arrows(), self.columns);
        let end = self.listing.size();
        let width = end.to_string().len();
        let mut lines = Vec::with_capacity(self.listing.len());
        for instruction in &self.listing {
            let mut line = String::new();
            let targets = rows.targets(&instruction);
            let row = instruction.index;
            columns.draw(row, &targets, glyphs, &mut line)?;
            let (start, name) = (instruction.start, instruction.tag);
            write!(line, "{start:>width$}  {name:<NAME_WIDTH$}")?;
            write_fields(&instruction, glyphs.lands, &mut line)?;
            lines.push(line);
        }
        self.write_nodes(&mut lines)?;
        for line in lines {
            writeln!(f, "{}", line.trim_end())?;
        }
        let mut line = String::new();
        columns.draw(rows.count(), &[], glyphs, &mut line)?;
        writeln!(f, "{line}{end:>width$}  end")
    }
}

impl Drawing<'_> {
    /// Puts the paths, if they are asked for, in a column behind the longest line.
    fn write_nodes(&self, lines: &mut [String]) -> fmt::Result {
        let Some(nodes) = self.nodes else {
            return Ok(());
        };
        let length = |line: &String| line.chars().count();
        let longest = lines.iter().map(length).max().unwrap_or_default();
        for (line, instruction) in lines.iter_mut().zip(&self.listing) {
            let gap = longest - length(line);
            let path = nodes.path(instruction.node as usize);
            write!(line, "{:gap$}  {}", "", path_text(&path))?;
        }
        Ok(())
    }
}

/// The characters of a drawing.
struct Glyphs {
    vertical: char,
    horizontal: char,
    crossing: char,
    /// A line that begins here and goes down; the same with another coming from the left.
    top: [char; 2],
    /// A line that ends here; the same with another coming from the left.
    bottom: [char; 2],
    /// A line that goes on and has a branch to the right; the same with another coming from the left.
    middle: [char; 2],
    head: char,
    lands: &'static str,
}

const BOX: Glyphs = Glyphs {
    vertical: '│',
    horizontal: '─',
    crossing: '┼',
    top: ['╭', '┬'],
    bottom: ['╰', '┴'],
    middle: ['├', '┼'],
    head: '>',
    lands: "→",
};

const ASCII: Glyphs = Glyphs {
    vertical: '|',
    horizontal: '-',
    crossing: '+',
    top: ['/', '+'],
    bottom: ['\\', '+'],
    middle: ['|', '+'],
    head: '>',
    lands: "->",
};

/// Where instructions begin: a row for each, and one for the end.
struct Rows<'a> {
    listing: Listing<'a>,
    starts: Vec<u32>,
}

impl<'a> Rows<'a> {
    fn new(listing: Listing<'a>) -> Self {
        let mut starts: Vec<u32> = listing.iter().map(|each| each.start).collect();
        starts.push(listing.size());
        Self { listing, starts }
    }

    /// How many instructions there are, which is the row of the end.
    fn count(&self) -> usize {
        self.starts.len() - 1
    }

    /// The rows where an instruction's jumps land. A jump between two rows or out of the listing, which no resolved script has,
    /// has no arrow.
    fn targets(&self, instruction: &Instruction) -> Vec<usize> {
        let row_of = |offset: i64| {
            let offset = u32::try_from(offset).ok()?;
            self.starts.binary_search(&offset).ok()
        };
        instruction.targets().filter_map(row_of).collect()
    }

    /// One arrow for each row where something lands from elsewhere.
    fn arrows(&self) -> Vec<Arrow> {
        let mut arrows = BTreeMap::new();
        for instruction in &self.listing {
            let row = instruction.index;
            for target in self.targets(&instruction) {
                if target != row {
                    let arrow = arrows.entry(target).or_insert(Arrow::onto(target));
                    arrow.top = arrow.top.min(row);
                    arrow.bottom = arrow.bottom.max(row);
                }
            }
        }
        arrows.into_values().collect()
    }
}

/// A line over rows, onto one of them.
#[derive(Clone, Copy)]
struct Arrow {
    target: usize,
    top: usize,
    bottom: usize,
}

impl Arrow {
    fn onto(target: usize) -> Self {
        Self {
            target,
            top: target,
            bottom: target,
        }
    }
}

/// The columns of arrows, from the text to the left. In a column arrows are in order and none meets another.
struct Columns {
    columns: Vec<std::vec::IntoIter<Arrow>>,
    /// The arrow of each column that is drawn now or comes next.
    current: Vec<Option<Arrow>>,
}

/// Puts each arrow in the first column where it meets no other, the shortest arrows first. An arrow that holds another stands
/// to its left: whatever keeps the inner one out of a column keeps the outer one out too.
fn place(mut arrows: Vec<Arrow>, limit: usize) -> Columns {
    arrows.sort_by_key(|arrow| (arrow.bottom - arrow.top, arrow.top));
    let mut columns: Vec<BTreeMap<usize, Arrow>> = Vec::new();
    for arrow in arrows {
        let free = columns.iter().position(|column| is_free(column, arrow));
        let number = free.unwrap_or(columns.len());
        if number == columns.len() && number < limit {
            columns.push(BTreeMap::new());
        }
        if let Some(column) = columns.get_mut(number) {
            column.insert(arrow.top, arrow);
        }
    }
    let columns = columns
        .into_iter()
        .map(|column| column.into_values().collect::<Vec<_>>().into_iter());
    Columns::new(columns.collect())
}

/// Of arrows that do not meet, only the last that begins by the new one's bottom can meet it.
fn is_free(column: &BTreeMap<usize, Arrow>, arrow: Arrow) -> bool {
    let before = column.range(..=arrow.bottom).next_back();
    before.is_none_or(|(_, other)| other.bottom < arrow.top)
}

impl Columns {
    fn new(mut columns: Vec<std::vec::IntoIter<Arrow>>) -> Self {
        let current = columns.iter_mut().map(Iterator::next).collect();
        Self { columns, current }
    }

    /// The arrows of a row, whose own jumps land on the rows `targets`. Rows are drawn in order.
    fn draw(
        &mut self,
        row: usize,
        targets: &[usize],
        glyphs: &Glyphs,
        line: &mut String,
    ) -> fmt::Result {
        self.advance(row);
        let mut coming = false;
        let mut head = false;
        for &arrow in self.current.iter().rev() {
            let arrow = arrow.filter(|arrow| arrow.top <= row);
            let touches =
                arrow.is_some_and(|arrow| arrow.target == row || targets.contains(&arrow.target));
            line.write_char(cell(arrow, row, touches, coming, glyphs))?;
            coming |= touches;
            head |= arrow.is_some_and(|arrow| arrow.target == row);
            line.write_char(if coming { glyphs.horizontal } else { ' ' })?;
        }
        line.write_char(match (coming, head) {
            (_, true) => glyphs.head,
            (true, false) => glyphs.horizontal,
            (false, false) => ' ',
        })?;
        line.write_char(' ')
    }

    /// Leaves the arrows that have ended.
    fn advance(&mut self, row: usize) {
        for (column, current) in self.columns.iter_mut().zip(&mut self.current) {
            while current.is_some_and(|arrow| arrow.bottom < row) {
                *current = column.next();
            }
        }
    }
}

/// The character of one column: `coming` if a line comes from the left.
fn cell(arrow: Option<Arrow>, row: usize, touches: bool, coming: bool, glyphs: &Glyphs) -> char {
    let from_left = usize::from(coming);
    match arrow {
        None if coming => glyphs.horizontal,
        None => ' ',
        Some(_) if !touches && coming => glyphs.crossing,
        Some(_) if !touches => glyphs.vertical,
        Some(arrow) if row == arrow.top => glyphs.top[from_left],
        Some(arrow) if row == arrow.bottom => glyphs.bottom[from_left],
        Some(_) => glyphs.middle[from_left],
    }
}

/// The fields that the instruction's tag uses, by name, each after two spaces.
fn write_fields(instruction: &Instruction, lands: &str, line: &mut String) -> fmt::Result {
    let uses = instruction.tag.fields();
    let jumps = [
        (uses.first, instruction.distance(), instruction.target()),
        (
            uses.second,
            instruction.second_distance(),
            instruction.second_target(),
        ),
    ];
    for jump in jumps {
        if let (Some(name), Some(distance), Some(target)) = jump {
            // the only label needs no name
            let name = if name == "target" { "" } else { name };
            let space = if name.is_empty() { "" } else { " " };
            write!(line, "  {name}{space}{distance:+} {lands} {target}")?;
        }
    }
    if let Some(name) = uses.small {
        write!(line, "  {name} {}", instruction.small)?;
    }
    if uses.line {
        write!(line, "  line {}", instruction.line)?;
    }
    if uses.flags {
        write!(line, "  flags {}", instruction.flags)?;
    }
    match uses.value {
        Some(form) => write_value(form, instruction.value, line),
        None => Ok(()),
    }
}

/// A value as what it stands for. A constant's own bits are the low ones, so that cutting the others gives it back.
fn write_value(form: ValueForm, value: u64, line: &mut String) -> fmt::Result {
    line.write_str("  ")?;
    if let Some(noun) = form.noun() {
        write!(line, "{noun} ")?;
    }
    match form {
        ValueForm::I8 => write!(line, "{}", value as i8),
        ValueForm::I16 => write!(line, "{}", value as i16),
        ValueForm::I32 => write!(line, "{}", value as i32),
        ValueForm::I64 => write!(line, "{}", value as i64),
        ValueForm::F32 => write!(line, "{:?}", f32::from_bits(value as u32)),
        ValueForm::F64 => write!(line, "{:?}", f64::from_bits(value)),
        ValueForm::Enum => write!(line, "{} value {}", value >> 32, value as u32),
        _ => write!(line, "{value}"),
    }
}
