//! Refusals: the paper's numbers.

/// A refusal's number, with its slot or reason where the table shows one, else 0.
#[derive(Clone, Copy, Debug, PartialEq, Eq)]
pub struct Refusal {
    /// The paper's number.
    pub number: u32,
    /// A slot (6, 7, 8) or a reason (11).
    pub value: u32,
}

/// What a call answers: its value, or why it is refused.
pub type Answer<T> = Result<T, Refusal>;

/// Refuses with a number that carries nothing.
pub(crate) fn refuse<T>(number: u32) -> Answer<T> {
    Err(Refusal { number, value: 0 })
}

/// Refuses with a number and its slot or reason.
pub(crate) fn refuse_with<T>(number: u32, value: u64) -> Answer<T> {
    Err(Refusal { number, value: value as u32 })
}
