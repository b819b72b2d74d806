use std::marker::PhantomData;

/// Type variables by name. A unit has none.
pub struct ScopedMap<'scope, K, V>(PhantomData<(&'scope (), K, V)>);

impl<K, V> Default for ScopedMap<'_, K, V> {
    fn default() -> Self {
        Self(PhantomData)
    }
}
