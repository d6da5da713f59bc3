//! A call of the language as a row of its subject's table.

use super::State;
use crate::arguments::call::CallForm;
use crate::arguments::lines::BadLine;

/// One call: its row in the table of its subject.
pub struct Call {
    pub form: CallForm,
    /// Makes the call. It is given as many words as the form allows.
    pub answer: fn(&mut State, &[&[u8]]) -> Result<String, BadLine>,
}
