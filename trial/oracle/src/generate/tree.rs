//! Random statements and expressions of every kind.

use super::encode::expr::Call;
use super::encode::{counted, expr, stmt};
use crate::random::Random;

/// What is wrong in a unit, now and then, where it could be.
#[derive(Debug, Clone, Copy, PartialEq, Eq)]
pub enum Wrong {
    /// Breaks and continues that no loop or switch is around.
    Jump,
    /// Intrinsics with a short-circuit mark or a wrong type count.
    Intrinsic,
    /// Calls with more arguments than parameters.
    ExtraArguments,
}

/// What a statement stands in.
#[derive(Debug, Clone, Copy, Default)]
struct Around {
    has_loop: bool,
    has_loop_or_switch: bool,
}

const LOOP: Around = Around {
    has_loop: true,
    has_loop_or_switch: true,
};

const AS_REF: u8 = 28;
const DEREF: u8 = 29;

/// The four Variant queries and IsDefined.
const UNTYPED: [u8; 5] = [24, 25, 26, 27, 32];

/// Of a random tree. Deeper ones are made as chains.
const MAX_DEPTH: usize = 40;

pub struct Maker<'a> {
    random: &'a mut Random,
    /// Bytes left; with few left, only leaves are made.
    room: usize,
    /// Levels left; with none left, only leaves are made.
    depth: usize,
    wrong: Option<Wrong>,
}

impl<'a> Maker<'a> {
    pub fn new(random: &'a mut Random, room: usize, wrong: Option<Wrong>) -> Self {
        Self {
            random,
            room,
            depth: MAX_DEPTH,
            wrong,
        }
    }

    /// The unit's block.
    pub fn body(&mut self) -> Vec<u8> {
        let mut stmts = self.stmts(Around::default(), 4);
        while self.room > 20 {
            stmts.extend(self.stmt(Around::default()));
        }
        counted(&stmts)
    }

    /// A block that is one loop around one switch, with little but breaks and continues in its cases.
    pub fn switch_in_loop(&mut self) -> Vec<u8> {
        let condition = self.expr();
        self.room = 0;
        let switch = self.switch(LOOP);
        counted(&stmt::while_(&condition, &switch))
    }

    fn goes_wrong(&mut self, wrong: Wrong) -> bool {
        self.wrong == Some(wrong) && self.random.once_in(2)
    }

    fn flip(&mut self) -> bool {
        self.random.once_in(2)
    }

    fn index(&mut self) -> u32 {
        match self.random.between(1, 8) {
            1 => 0,
            2 => u32::MAX,
            3 => self.random.bits() as u32,
            _ => self.random.between(1, 9) as u32,
        }
    }

    fn repeat(&mut self, most: usize, mut item: impl FnMut(&mut Self) -> Vec<u8>) -> Vec<u8> {
        let count = self.random.between(0, most);
        (0..count).flat_map(|_| item(self)).collect()
    }

    fn stmts(&mut self, around: Around, most: usize) -> Vec<u8> {
        self.repeat(most, |maker| maker.stmt(around))
    }

    /// Makes a node's children.
    fn nested(&mut self, make: impl FnOnce(&mut Self) -> Vec<u8>) -> Vec<u8> {
        self.depth -= 1;
        let made = make(self);
        self.depth += 1;
        made
    }

    fn stmt(&mut self, around: Around) -> Vec<u8> {
        self.room = self.room.saturating_sub(9);
        let kind = match self.room < 20 || self.depth < 2 {
            true => self.random.pick(&[1, 7, 8, 8, 9, 9, 10]),
            false => self
                .random
                .pick(&[1, 1, 1, 2, 3, 3, 4, 4, 5, 5, 5, 6, 7, 8, 9, 10]),
        };
        self.nested(|maker| maker.stmt_of(kind, around))
    }

    fn stmt_of(&mut self, kind: u8, around: Around) -> Vec<u8> {
        match kind {
            2 => stmt::block(&self.stmts(around, 3)),
            3 => stmt::while_(&self.expr(), &self.stmts(LOOP, 4)),
            4 => self.branches(around),
            5 => self.switch(around),
            6 => stmt::init_array(self.index(), self.index(), &self.repeat(3, Self::expr)),
            7 => self.init_default(),
            8 if around.has_loop_or_switch || self.goes_wrong(Wrong::Jump) => stmt::break_(),
            9 if around.has_loop || self.goes_wrong(Wrong::Jump) => stmt::continue_(),
            10 => self.return_(),
            _ => stmt::expr(&self.expr()),
        }
    }

    fn branches(&mut self, around: Around) -> Vec<u8> {
        let branches = self.repeat(3, |maker| {
            let condition = maker.expr();
            [condition, counted(&maker.stmts(around, 2))].concat()
        });
        let default = self.flip().then(|| self.stmts(around, 2));
        stmt::branches(&branches, default.as_deref())
    }

    fn switch(&mut self, around: Around) -> Vec<u8> {
        let around = Around {
            has_loop_or_switch: true,
            ..around
        };
        let scrutinee = self.expr();
        let count = self.random.between(0, 4);
        let cases: Vec<u8> = (0..count).flat_map(|_| self.case(around)).collect();
        let default = self.flip().then(|| self.stmts(around, 2));
        let default_index = match self.random.once_in(10) {
            true => self.index(),
            false => self.random.between(0, count) as u32,
        };
        stmt::switch(
            self.index(),
            &scrutinee,
            default_index,
            &cases,
            default.as_deref(),
        )
    }

    fn case(&mut self, around: Around) -> Vec<u8> {
        let matcher = self.expr();
        let stmts = match self.random.between(1, 8) {
            1..=3 => vec![],
            4 => stmt::block(&[]),
            5 => stmt::break_(),
            _ => self.stmts(around, 3),
        };
        [matcher, counted(&stmts)].concat()
    }

    fn init_default(&mut self) -> Vec<u8> {
        let default = self.random.between(0, 22) as u8;
        stmt::init_default(self.index(), default, self.index())
    }

    fn return_(&mut self) -> Vec<u8> {
        let expr = self.flip().then(|| self.expr());
        stmt::return_(expr.as_deref())
    }

    pub fn expr(&mut self) -> Vec<u8> {
        self.room = self.room.saturating_sub(7);
        let kind = match self.room < 25 || self.depth < 2 {
            true => self.random.pick(&[1, 2, 3, 4, 11]),
            false => self.expr_kind(),
        };
        match self.depth {
            0 => expr::nop(),
            _ => self.nested(|maker| maker.expr_of(kind)),
        }
    }

    /// A kind, often one that can go wrong as the unit should.
    fn expr_kind(&mut self) -> u8 {
        match (self.wrong, self.flip()) {
            (Some(Wrong::Intrinsic), true) => 12,
            (Some(Wrong::ExtraArguments), true) => self.random.pick(&[13, 14, 15]),
            _ => self.random.pick(&[
                1, 2, 2, 3, 4, 5, 6, 7, 7, 8, 9, 9, 10, 11, 12, 12, 12, 12, 13, 13, 14, 15, 15, 16,
            ]),
        }
    }

    fn expr_of(&mut self, kind: u8) -> Vec<u8> {
        match kind {
            1 => expr::nop(),
            2 => self.constant(),
            3 => expr::null(self.flip()),
            4 => expr::new_instance(self.index()),
            5 => expr::construct(self.index(), &self.repeat(3, Self::expr)),
            6 => expr::assign(&self.expr(), &self.expr()),
            7 => self.field(),
            8 => expr::element(self.flip(), self.index(), &self.expr(), &self.expr()),
            9 => expr::conditional(&self.expr(), &self.expr(), &self.expr()),
            10 => expr::dyn_cast(self.index(), self.flip(), &self.expr()),
            11 => self.local(),
            12 => self.intrinsic(),
            kind => self.call(kind),
        }
    }

    fn constant(&mut self) -> Vec<u8> {
        let byte = self.random.between(0, 15) as u8;
        let value = self.random.bits().to_be_bytes();
        match byte {
            0..=3 => expr::constant(byte, &self.index().to_be_bytes()),
            7 | 11 => expr::constant(byte, &value[..1]),
            8 | 12 => expr::constant(byte, &value[..2]),
            9 if self.flip() => {
                let value = self.random.pick(&[0_i32, 1, 2, -1]);
                expr::constant(byte, &value.to_be_bytes())
            }
            5 | 9 | 13 => expr::constant(byte, &value[..4]),
            15 => expr::constant(byte, &[self.flip().into()]),
            _ => expr::constant(byte, &value),
        }
    }

    fn field(&mut self) -> Vec<u8> {
        let form = self.random.between(0, 2) as u8;
        expr::field(form, self.index(), &self.expr())
    }

    fn local(&mut self) -> Vec<u8> {
        let form = self.random.between(0, 3) as u8;
        expr::local(form, self.index())
    }

    fn intrinsic(&mut self) -> Vec<u8> {
        let code = self.random.between(0, 33) as u8;
        let is_wrong = self.goes_wrong(Wrong::Intrinsic);
        let is_short_circuit = is_wrong && self.flip();
        let type_count = match is_wrong && !is_short_circuit {
            true => self.random.pick(&[0, 1, 2, 255]),
            false => (!UNTYPED.contains(&code)).into(),
        };
        let args = self.repeat(2, Self::expr);
        expr::intrinsic(code, is_short_circuit, type_count, self.index(), &args)
    }

    fn call(&mut self, kind: u8) -> Vec<u8> {
        self.room = self.room.saturating_sub(16);
        let arg_count = self.random.between(0, 3);
        let receiver = if kind > 14 { self.expr() } else { vec![] };
        let args: Vec<u8> = (0..arg_count).flat_map(|_| self.arg()).collect();
        let param_count = match arg_count > 0 && self.goes_wrong(Wrong::ExtraArguments) {
            true => arg_count - 1,
            false => arg_count + self.random.pick(&[0, 0, 1, 2]),
        };
        let params = self.params(param_count);
        let call = self.call_of(&params, &args);
        match kind {
            13 => call.free(),
            14 => call.static_(),
            15 => call.instance(self.flip(), &receiver),
            _ => call.closure(&receiver),
        }
    }

    pub fn params(&mut self, count: usize) -> Vec<bool> {
        (0..count).map(|_| self.random.once_in(3)).collect()
    }

    /// A call of some function, often one that no flag makes static.
    pub fn call_of<'b>(&mut self, params: &'b [bool], args: &'b [u8]) -> Call<'b> {
        Call {
            function: self.index(),
            name: self.index(),
            line: self.random.bits() as u16,
            flags: self.random.pick(&[0, 0, 0, 1, 2, 4, 8, 15]),
            params,
            args,
        }
    }

    /// An argument, often one that may need a flag.
    fn arg(&mut self) -> Vec<u8> {
        match self.flip() {
            true => self.as_ref(),
            false => self.expr(),
        }
    }

    /// AsRef of a value, of a place, or of another count of arguments than one.
    pub fn as_ref(&mut self) -> Vec<u8> {
        self.room = self.room.saturating_sub(12);
        let inner = match self.random.between(1, 8) {
            1 => vec![],
            2 => [self.expr(), self.expr()].concat(),
            3 => self.deref(),
            4 => self.local(),
            _ => self.expr(),
        };
        expr::intrinsic(AS_REF, false, 1, self.index(), &inner)
    }

    fn deref(&mut self) -> Vec<u8> {
        let inner = self.expr();
        expr::intrinsic(DEREF, false, 1, self.index(), &inner)
    }
}
