//! Stub: everything that can be cloned can be duped, so the derive has nothing to add.

pub use empty_derives::Dupe;

pub trait Dupe: Clone {
    fn dupe(&self) -> Self {
        self.clone()
    }
}

impl<T: Clone> Dupe for T {}
