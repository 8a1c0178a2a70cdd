//! Stand-in for `crate::tf`.

use std::fmt::Debug;

#[derive(Debug, Clone, PartialEq)]
pub struct Token(pub String);

impl Token {
    pub fn as_str(&self) -> &str {
        &self.0
    }
}

pub fn error_chain(error: &impl Debug) -> String {
    format!("{error:?}")
}
