//! Stand-in for `crate::vt`: the kinds of value that the kept functions look at. A number is a `Double`.

use std::collections::HashMap;

use crate::gf::Vec2d;
use crate::sdf::{AssetPath, TimeCode, TimeSampleMap};
use crate::tf::Token;

pub type Dictionary = HashMap<String, Value>;

// The names are the Rust's.
#[allow(clippy::enum_variant_names)]
#[derive(Debug, Clone, PartialEq)]
pub enum Value {
    Double(f64),
    ValueBlock,
    Bool(bool),
    String(String),
    Token(Token),
    AssetPath(AssetPath),
    AssetPathVec(Vec<AssetPath>),
    Vec2dVec(Vec<Vec2d>),
    Dictionary(Dictionary),
    TimeCode(TimeCode),
    TimeCodeVec(Vec<TimeCode>),
    TimeSamples(TimeSampleMap),
}

impl Value {
    pub fn as_str(&self) -> Option<&str> {
        match self {
            Value::String(text) => Some(text),
            Value::Token(token) => Some(token.as_str()),
            _ => None,
        }
    }

    pub fn try_transform(&self, f: &mut dyn FnMut(&Value) -> Option<Value>) -> Option<Value> {
        f(self)
    }
}

macro_rules! holds {
    ($type:ty, $case:ident) => {
        impl TryFrom<Value> for $type {
            type Error = Value;
            fn try_from(value: Value) -> Result<Self, Value> {
                match value {
                    Value::$case(held) => Ok(held),
                    other => Err(other),
                }
            }
        }
    };
}

holds!(f64, Double);
holds!(bool, Bool);
holds!(Vec<Vec2d>, Vec2dVec);
holds!(Vec<AssetPath>, AssetPathVec);
