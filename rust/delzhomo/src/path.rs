//! The way from the top of a unit to a place in it, found by walking the bytes as the reader does; and all nodes at once, for many ways.

use std::fmt;
use std::ops::ControlFlow;

use crate::encode::MAX_DEPTH;
use crate::kind::{Kind, Part};

/// A node on the way to a place.
#[derive(Debug, Clone, Copy, PartialEq, Eq, Hash)]
pub struct Step {
    /// What the node is.
    pub kind: Kind,
    /// Where it begins in the unit.
    pub offset: usize,
}

impl fmt::Display for Step {
    fn fmt(&self, f: &mut fmt::Formatter<'_>) -> fmt::Result {
        write!(f, "{} at {}", self.kind, self.offset)
    }
}

/// A path as it is printed: `While at 10 > Break at 26`.
pub fn path_text(path: &[Step]) -> String {
    let steps: Vec<String> = path.iter().map(ToString::to_string).collect();
    steps.join(" > ")
}

/// The nodes of a unit, found in one walk: the paths to many of them cost no walk each.
#[derive(Debug, Clone, Default)]
pub struct Nodes {
    /// In the order of the unit, so that offsets rise.
    nodes: Vec<Node>,
}

/// A node, and the number of the one that holds it.
#[derive(Debug, Clone, Copy)]
struct Node {
    step: Step,
    holder: Option<usize>,
}

impl Nodes {
    /// The nodes from the top of the unit down to the one that begins at this place, outermost first. Empty if none begins there.
    pub fn path(&self, place: usize) -> Vec<Step> {
        let found = self
            .nodes
            .binary_search_by_key(&place, |node| node.step.offset);
        self.down_to(found.ok())
    }

    /// How many nodes there are.
    pub fn len(&self) -> usize {
        self.nodes.len()
    }

    /// Whether there is none.
    pub fn is_empty(&self) -> bool {
        self.nodes.is_empty()
    }

    /// Every node, in the order of the unit.
    pub fn iter(&self) -> impl Iterator<Item = Step> {
        self.nodes.iter().map(|node| node.step)
    }

    fn down_to(&self, number: Option<usize>) -> Vec<Step> {
        let node = |number: usize| self.nodes[number];
        let chain = std::iter::successors(number.map(node), |last| last.holder.map(node));
        let mut path: Vec<Step> = chain.map(|node| node.step).collect();
        path.reverse();
        path
    }
}

/// Where the unit's block begins: after version, length and return byte.
const BLOCK_AT: usize = 6;

pub(crate) fn path(unit: &[u8], place: usize) -> Vec<Step> {
    let walk = Walk::over(unit, Some(place));
    walk.nodes.down_to(walk.innermost)
}

pub(crate) fn nodes(unit: &[u8]) -> Nodes {
    Walk::over(unit, None).nodes
}

/// Where to go on, or that the walk is over: the place is found, or the unit is damaged here.
type Next = ControlFlow<(), usize>;

const OVER: Next = ControlFlow::Break(());

struct Walk<'a> {
    unit: &'a [u8],
    /// The place that is looked for; without one the walk goes into every node.
    place: Option<usize>,
    /// The nodes that it has gone into.
    nodes: Nodes,
    /// The number of the one that it is in.
    innermost: Option<usize>,
}

/// Reads an item of a run: from where it begins, the end of its run, and its depth.
type Item<'a> = fn(&mut Walk<'a>, usize, usize, usize) -> Next;

impl<'a> Walk<'a> {
    fn over(unit: &'a [u8], place: Option<usize>) -> Self {
        let mut walk = Self {
            unit,
            place,
            nodes: Nodes::default(),
            innermost: None,
        };
        // either way there is what is asked for: all of it, or as far as it goes
        let _ = walk.run(BLOCK_AT, unit.len(), 1, Walk::stmt);
        walk
    }

    /// Whether the place lies before this offset.
    fn is_passed(&self, offset: usize) -> bool {
        self.place.is_some_and(|place| place < offset)
    }

    /// Whether the place lies behind this offset.
    fn is_behind(&self, offset: usize) -> bool {
        self.place.is_some_and(|place| offset < place)
    }

    fn enter(&mut self, step: Step) {
        let holder = self.innermost;
        self.innermost = Some(self.nodes.nodes.len());
        self.nodes.nodes.push(Node { step, holder });
    }

    fn stmt(&mut self, at: usize, holder: usize, depth: usize) -> Next {
        self.node(at, holder, depth, Kind::Stmt)
    }

    fn expr(&mut self, at: usize, holder: usize, depth: usize) -> Next {
        self.node(at, holder, depth, Kind::Expr)
    }

    fn arm(&mut self, at: usize, holder: usize, depth: usize) -> Next {
        let block = self.expr(at, holder, depth)?;
        self.run(block, holder, depth, Self::stmt)
    }

    fn node(&mut self, at: usize, holder: usize, depth: usize, kind: fn(u8) -> Kind) -> Next {
        // a node without a length and a kind inside its holder is a missing one: whatever stands there is not it
        let Some(&[.., number]) = self.within(at, 5, holder) else {
            return OVER;
        };
        let step = Step {
            kind: kind(number),
            offset: at,
        };
        if self.place == Some(at) {
            self.enter(step);
            return OVER;
        }
        let Some(end) = self.span(at, holder) else {
            return OVER;
        };
        if self.is_behind(end) {
            return Next::Continue(end);
        }
        if depth > MAX_DEPTH {
            return OVER;
        }
        let holder = self.innermost;
        self.enter(step);
        self.body(step, end, depth)?;
        // a place at the end belongs to a missing part, of which there is none here, or to what comes next
        if self.is_passed(end) {
            return OVER;
        }
        self.innermost = holder;
        Next::Continue(end)
    }

    /// The parts of a node, up to the one that holds the place.
    fn body(&mut self, step: Step, end: usize, depth: usize) -> Next {
        let mut at = step.offset + 5;
        let mut marked = false;
        for &part in step.kind.parts() {
            // the place is in what has been passed: in the head or in a field
            if self.is_passed(at) {
                return OVER;
            }
            if let Part::Mark = part {
                marked = self.within(at, 1, end) == Some(&[1]);
            }
            at = self.part(part, marked, at, end, depth + 1)?;
        }
        Next::Continue(at)
    }

    fn part(&mut self, part: Part, marked: bool, at: usize, end: usize, depth: usize) -> Next {
        match part {
            Part::Bytes(count) => self.skip(at, count, end),
            Part::Mark => self.skip(at, 1, end),
            Part::Params => match self.within(at, 1, end) {
                Some(&[count]) => self.skip(at, 1 + usize::from(count), end),
                _ => OVER,
            },
            Part::ExprIfMarked | Part::BlockIfMarked if !marked => Next::Continue(at),
            Part::Expr | Part::ExprIfMarked => self.expr(at, end, depth),
            Part::Exprs => self.run(at, end, depth, Self::expr),
            Part::Arms => self.run(at, end, depth, Self::arm),
            Part::Block | Part::BlockIfMarked => self.run(at, end, depth, Self::stmt),
        }
    }

    /// A run or block: a place at its length is its own, and so the holder's.
    fn run(&mut self, at: usize, holder: usize, depth: usize, item: Item<'a>) -> Next {
        let Some(stop) = self.span(at, holder) else {
            return OVER;
        };
        if self.is_behind(stop) {
            return Next::Continue(stop);
        }
        let mut next = at + 4;
        if self.is_passed(next) {
            return OVER;
        }
        while next < stop {
            next = item(self, next, stop, depth)?;
        }
        Next::Continue(stop)
    }

    fn skip(&self, at: usize, count: usize, end: usize) -> Next {
        match self.within(at, count, end) {
            Some(_) => Next::Continue(at + count),
            None => OVER,
        }
    }

    /// Where what a length counts ends, if both are within the holder.
    fn span(&self, at: usize, holder: usize) -> Option<usize> {
        let length = self.within(at, 4, holder)?.try_into().ok()?;
        let length = usize::try_from(u32::from_be_bytes(length)).ok()?;
        let end = at.checked_add(4)?.checked_add(length)?;
        (end <= holder).then_some(end)
    }

    /// So many bytes, if they are within the holder.
    fn within(&self, at: usize, count: usize, holder: usize) -> Option<&'a [u8]> {
        let end = at.checked_add(count)?;
        if end > holder {
            return None;
        }
        self.unit.get(at..end)
    }
}
