//! Stub: a derive that expands to nothing, and a reference to a value that lives forever.

pub use empty_derives::Pagable;

pub struct StaticValue<T: 'static>(&'static T);

impl<T> StaticValue<T> {
    pub const fn new(value: &'static T) -> Self {
        StaticValue(value)
    }

    pub const fn value(&self) -> &'static T {
        self.0
    }
}

impl<T> Clone for StaticValue<T> {
    fn clone(&self) -> Self {
        *self
    }
}

impl<T> Copy for StaticValue<T> {}

impl<T> std::ops::Deref for StaticValue<T> {
    type Target = T;

    fn deref(&self) -> &T {
        self.0
    }
}

/// Nothing is registered: no value is ever paged out.
#[macro_export]
macro_rules! declare_static_value_type {
    ($value:ty, $entry:ident) => {};
}
