//! What is wrong with a message: its refusal, and in words what was met first.

use crate::refusal::Refusal;
use std::borrow::Cow;

#[derive(Clone, PartialEq, Eq, Debug)]
pub struct Flaw {
    pub refusal: Refusal,
    pub why: Cow<'static, str>,
}

impl Flaw {
    pub fn new(refusal: Refusal, why: impl Into<Cow<'static, str>>) -> Self {
        Flaw { refusal, why: why.into() }
    }
}
