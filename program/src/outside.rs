//! Replaces the toolchain's library: a vector and a text that return an error if memory is lacking.
use std::fmt;
use std::marker::PhantomData;
use std::ops::Deref;

pub struct AllocError;

pub trait Allocator {}

pub struct Heap;

impl Allocator for Heap {}

impl<A: Allocator> Allocator for &A {}

pub struct Vec<T, A>(std::vec::Vec<T>, PhantomData<A>);

impl<T: Clone, A: Allocator> Vec<T, A> {
    pub fn new(_: A) -> Vec<T, A> {
        Vec(std::vec::Vec::new(), PhantomData)
    }

    pub fn extend_from_slice(&mut self, slice: &[T]) -> Result<(), AllocError> {
        self.0.try_reserve(slice.len()).map_err(|_| AllocError)?;
        self.0.extend_from_slice(slice);
        Ok(())
    }
}

impl<T, A> Deref for Vec<T, A> {
    type Target = [T];

    fn deref(&self) -> &[T] {
        &self.0
    }
}

pub struct String<A>(Vec<u8, A>);

impl<A: Allocator> String<A> {
    pub fn new(alloc: A) -> String<A> {
        String(Vec::new(alloc))
    }

    pub fn push_str(&mut self, text: &str) -> Result<(), AllocError> {
        self.0.extend_from_slice(text.as_bytes())
    }

    /// `write!` calls this.
    pub fn write_fmt(&mut self, arguments: fmt::Arguments<'_>) -> Result<(), AllocError> {
        fmt::Write::write_fmt(self, arguments).map_err(|_| AllocError)
    }

    pub fn as_bytes(&self) -> &[u8] {
        &self.0
    }
}

impl<A: Allocator> fmt::Write for String<A> {
    fn write_str(&mut self, text: &str) -> fmt::Result {
        self.push_str(text).map_err(|_| fmt::Error)
    }
}

#[test]
fn asks_for_as_much_as_it_takes() {
    // Elements of this type take no memory, so an element is only refused if there are too many to
    // count.
    let mut values = Vec::new(Heap);
    assert!(values.extend_from_slice(&[()]).is_ok());
    assert!(values.extend_from_slice(&[(); usize::MAX]).is_err());
}
