use crate::bytes::Bytes;
use crate::calls;
use crate::Value;
use std::iter::FusedIterator;
use std::slice;

/// The values of a cell, one after the other.
#[derive(Clone, Debug)]
pub struct Values<'c, 'a> {
    bytes: Bytes<'a>,
    left: slice::Iter<'c, calls::Value>,
}

impl<'c, 'a> Values<'c, 'a> {
    #[inline]
    pub(crate) fn of(bytes: Bytes<'a>, values: &'c [calls::Value]) -> Values<'c, 'a> {
        Values { bytes, left: values.iter() }
    }
}

impl<'a> Iterator for Values<'_, 'a> {
    type Item = Value<'a>;

    #[inline]
    fn next(&mut self) -> Option<Value<'a>> {
        let value = self.left.next()?;
        Some(Value::of(self.bytes.0, value))
    }

    #[inline]
    fn nth(&mut self, passed: usize) -> Option<Value<'a>> {
        let value = self.left.nth(passed)?;
        Some(Value::of(self.bytes.0, value))
    }

    #[inline]
    fn size_hint(&self) -> (usize, Option<usize>) {
        self.left.size_hint()
    }
}

impl ExactSizeIterator for Values<'_, '_> {}
impl FusedIterator for Values<'_, '_> {}
