//! The parts of a unit, as bytes.

pub fn unit(returns: bool, block: &[u8]) -> Vec<u8> {
    let mut unit = vec![1];
    unit.extend((block.len() as u32 + 1).to_be_bytes());
    unit.push(returns.into());
    unit.extend(block);
    unit
}

/// A run or block, or a node whose rest is given.
pub fn counted(rest: &[u8]) -> Vec<u8> {
    let mut bytes = (rest.len() as u32).to_be_bytes().to_vec();
    bytes.extend(rest);
    bytes
}

pub fn node<const N: usize>(kind: u8, fields: [&[u8]; N]) -> Vec<u8> {
    let mut rest = vec![kind];
    fields.iter().for_each(|field| rest.extend(*field));
    counted(&rest)
}

pub mod stmt {
    use super::{counted, node};

    pub fn expr(expr: &[u8]) -> Vec<u8> {
        node(1, [expr])
    }

    pub fn block(stmts: &[u8]) -> Vec<u8> {
        node(2, [&counted(stmts)])
    }

    pub fn while_(condition: &[u8], stmts: &[u8]) -> Vec<u8> {
        node(3, [condition, &counted(stmts)])
    }

    /// `branches`: conditions and blocks, one after the other.
    pub fn branches(branches: &[u8], default: Option<&[u8]>) -> Vec<u8> {
        node(4, [&counted(branches), &optional(default)])
    }

    /// `cases`: matchers and blocks, one after the other.
    pub fn switch(
        index: u32,
        scrutinee: &[u8],
        default_index: u32,
        cases: &[u8],
        default: Option<&[u8]>,
    ) -> Vec<u8> {
        let optional = optional(default);
        let (mark, default) = optional.split_at(1);
        let default_index = default_index.to_be_bytes();
        let cases = counted(cases);
        node(
            5,
            [
                &index.to_be_bytes(),
                scrutinee,
                &default_index,
                mark,
                &cases,
                default,
            ],
        )
    }

    pub fn init_array(local: u32, index: u32, elements: &[u8]) -> Vec<u8> {
        let elements = counted(elements);
        node(6, [&local.to_be_bytes(), &index.to_be_bytes(), &elements])
    }

    pub fn init_default(local: u32, default: u8, index: u32) -> Vec<u8> {
        node(7, [&local.to_be_bytes(), &[default], &index.to_be_bytes()])
    }

    pub fn break_() -> Vec<u8> {
        node(8, [])
    }

    pub fn continue_() -> Vec<u8> {
        node(9, [])
    }

    pub fn return_(expr: Option<&[u8]>) -> Vec<u8> {
        node(10, [&[expr.is_some().into()], expr.unwrap_or_default()])
    }

    fn optional(block: Option<&[u8]>) -> Vec<u8> {
        match block {
            Some(stmts) => [vec![1], counted(stmts)].concat(),
            None => vec![0],
        }
    }
}

pub mod expr {
    use super::{counted, node};

    pub fn nop() -> Vec<u8> {
        node(1, [])
    }

    pub fn constant(byte: u8, payload: &[u8]) -> Vec<u8> {
        node(2, [&[byte], payload])
    }

    pub fn null(is_weak: bool) -> Vec<u8> {
        node(3, [&[is_weak.into()]])
    }

    pub fn new_instance(class: u32) -> Vec<u8> {
        node(4, [&class.to_be_bytes()])
    }

    pub fn construct(class: u32, args: &[u8]) -> Vec<u8> {
        node(5, [&class.to_be_bytes(), &counted(args)])
    }

    pub fn assign(place: &[u8], value: &[u8]) -> Vec<u8> {
        node(6, [place, value])
    }

    pub fn field(form: u8, field: u32, receiver: &[u8]) -> Vec<u8> {
        node(7, [&[form], &field.to_be_bytes(), receiver])
    }

    pub fn element(is_dynamic: bool, typ: u32, array: &[u8], index: &[u8]) -> Vec<u8> {
        node(8, [&[is_dynamic.into()], &typ.to_be_bytes(), array, index])
    }

    pub fn conditional(condition: &[u8], then: &[u8], else_: &[u8]) -> Vec<u8> {
        node(9, [condition, then, else_])
    }

    pub fn dyn_cast(class: u32, is_weak: bool, expr: &[u8]) -> Vec<u8> {
        node(10, [&class.to_be_bytes(), &[is_weak.into()], expr])
    }

    pub fn local(form: u8, index: u32) -> Vec<u8> {
        node(11, [&[form], &index.to_be_bytes()])
    }

    pub fn intrinsic(
        code: u8,
        is_short_circuit: bool,
        type_count: u8,
        index: u32,
        args: &[u8],
    ) -> Vec<u8> {
        let head = [code, is_short_circuit.into(), type_count];
        node(12, [&head, &index.to_be_bytes(), &counted(args)])
    }

    /// A call's fields after the receiver, if it has one.
    pub struct Call<'a> {
        pub function: u32,
        pub name: u32,
        pub line: u16,
        pub flags: u8,
        pub params: &'a [bool],
        pub args: &'a [u8],
    }

    impl Call<'_> {
        pub fn free(&self) -> Vec<u8> {
            node(13, [&self.fields()])
        }

        pub fn static_(&self) -> Vec<u8> {
            node(14, [&self.fields()])
        }

        pub fn instance(&self, is_weak: bool, receiver: &[u8]) -> Vec<u8> {
            node(15, [&[is_weak.into()], receiver, &self.fields()])
        }

        pub fn closure(&self, closure: &[u8]) -> Vec<u8> {
            let name = self.name.to_be_bytes();
            let line = self.line.to_be_bytes();
            node(16, [closure, &name, &line, &counted(self.args)])
        }

        fn fields(&self) -> Vec<u8> {
            let mut fields = self.function.to_be_bytes().to_vec();
            fields.extend(self.name.to_be_bytes());
            fields.extend(self.line.to_be_bytes());
            fields.extend([self.flags, self.params.len() as u8]);
            fields.extend(self.params.iter().map(|&mark| u8::from(mark)));
            fields.extend(counted(self.args));
            fields
        }
    }
}
