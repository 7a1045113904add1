use crate::calls;
use crate::{Gauge, Refusal, Value};

/// Where a value stands, as [`Gauge::screen`] is told it.
// As the call for C has it: three words, of which the first has the page in its lower half.
#[repr(C)]
#[derive(Clone, Copy, Debug, Default, PartialEq, Eq, Hash)]
pub struct Address {
    /// The page's number, as the reading counts.
    pub page: u32,
    /// The cell's number on the page, from 0 on.
    pub cell: usize,
    /// The column, from 0 on.
    pub column: usize,
}

/// What one value's call answers, as it is lent to [`Gauge::screen`]: a value's place, or why there is none. It borrows nothing, so a
/// list of them serves one screen after another. A new one is null.
// As the call for C has it: eight words.
#[repr(transparent)]
#[derive(Clone, Copy, Debug, Default, PartialEq, Eq)]
pub struct Answer(pub(crate) calls::Shown);

impl Answer {
    /// The value, or why there is none. The bytes of a text or a blob are those of the database that was asked; of another one they are
    /// whatever stands there, as far as it goes.
    ///
    /// # Errors
    /// Those of [`Gauge::value`] at the address.
    #[inline]
    pub fn shown<'a>(&self, gauge: &Gauge<'a>) -> Result<Value<'a>, Refusal> {
        Refusal::check(&self.0.refused)?;
        Ok(Value::of(gauge.bytes(), &self.0.value))
    }
}
