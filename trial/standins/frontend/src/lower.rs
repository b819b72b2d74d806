//! Types are known from the start: inference has nothing to do.

pub type PolyType<'ctx> = crate::types::Type<'ctx>;
pub type InferredTypeApp<'ctx> = crate::types::TypeApp<'ctx>;
