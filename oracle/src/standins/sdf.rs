//! `crate::sdf`: the items of sdf/mod.rs that the kept functions use, as published, and stand-ins for the rest. A layer
//! holds one attribute: its samples and its default, over the lent lists.
// Of the published text, which stays as it is.
#![allow(clippy::wrong_self_convention)]

use std::borrow::Cow;
use std::cmp::Ordering;
use std::collections::{HashMap, HashSet};
use std::fmt;
use std::mem;

use crate::vt::Value;

include!(concat!(env!("OUT_DIR"), "/sdf_items.rs"));

pub mod schema {
    #[derive(Debug, Clone, Copy, PartialEq)]
    pub enum FieldKey {
        Clips,
        ClipSets,
        TimeSamples,
        Default,
    }

    impl FieldKey {
        pub const fn as_str(&self) -> &'static str {
            match self {
                FieldKey::Clips => "clips",
                FieldKey::ClipSets => "clipSets",
                FieldKey::TimeSamples => "timeSamples",
                FieldKey::Default => "default",
            }
        }
    }
}

#[derive(Debug, Clone, PartialEq)]
pub struct AssetPath(String);

impl AssetPath {
    pub fn new(path: impl Into<String>) -> Self {
        AssetPath(path.into())
    }

    pub fn asset_path(&self) -> &str {
        &self.0
    }
}

impl From<String> for AssetPath {
    fn from(path: String) -> Self {
        AssetPath(path)
    }
}

#[derive(Debug, Clone, PartialEq, Eq, Hash)]
pub struct Path(String);

#[derive(Debug)]
pub struct PathParseError;

impl Path {
    pub fn new(path: &str) -> Result<Path, PathParseError> {
        Ok(Path(path.to_owned()))
    }

    pub fn has_prefix(&self, prefix: &Path) -> bool {
        self.0.starts_with(&prefix.0)
    }

    pub fn is_property(&self) -> bool {
        self.0.contains('.')
    }

    pub fn replace_prefix(&self, from: &Path, to: &Path) -> Option<Path> {
        self.0.strip_prefix(&from.0).map(|rest| Path(format!("{}{rest}", to.0)))
    }
}

impl fmt::Display for Path {
    fn fmt(&self, f: &mut fmt::Formatter<'_>) -> fmt::Result {
        f.write_str(&self.0)
    }
}

pub type PathMap<T> = HashMap<Path, T>;
pub type PathSet = HashSet<Path>;

pub struct Covering(Vec<Path>);

impl FromIterator<Path> for Covering {
    fn from_iter<I: IntoIterator<Item = Path>>(paths: I) -> Self {
        Covering(paths.into_iter().collect())
    }
}

impl Covering {
    pub fn covers(&self, path: &Path) -> bool {
        self.0.iter().any(|root| path.has_prefix(root))
    }
}

#[derive(Debug)]
pub struct DataError;

/// What a layer says of the one attribute.
#[derive(Debug, Default)]
pub struct Data {
    pub samples: Option<Value>,
    pub default: Option<Value>,
}

impl Data {
    pub fn try_field(&self, _path: &Path, name: &str) -> Result<Option<Cow<'_, Value>>, DataError> {
        let held = match name {
            "timeSamples" => &self.samples,
            "default" => &self.default,
            _ => &None,
        };
        Ok(held.as_ref().map(Cow::Borrowed))
    }

    pub fn has_spec(&self, _path: &Path) -> bool {
        true
    }

    pub fn spec_paths(&self) -> Vec<Path> {
        Vec::new()
    }
}

#[derive(Debug, Default)]
pub struct Layer {
    pub identifier: String,
    pub data: Data,
}

#[derive(Debug)]
pub struct EditError;

impl From<PathParseError> for EditError {
    fn from(_: PathParseError) -> Self {
        EditError
    }
}

pub struct LayerEdit<'a>(&'a mut Data);

impl LayerEdit<'_> {
    pub fn data_mut(&mut self) -> &mut Data {
        self.0
    }
}

impl Layer {
    pub fn new_anonymous(tag: &str) -> Layer {
        Layer { identifier: tag.to_owned(), data: Data::default() }
    }

    pub fn identifier(&self) -> &str {
        &self.identifier
    }

    pub fn data(&self) -> &Data {
        &self.data
    }

    pub fn edit<R>(&mut self, f: impl FnOnce(&mut LayerEdit<'_>) -> Result<R, EditError>) -> Result<R, EditError> {
        f(&mut LayerEdit(&mut self.data))
    }

    /// A layer that says something of the attribute declares it, and as varying; a manifest says when it is blocked, be it
    /// never.
    pub fn attribute(&self, _path: &Path) -> Result<Option<AttributeSpecRef>, PathParseError> {
        let declares = self.data.samples.is_some() || self.data.default.is_some();
        Ok(declares.then_some(AttributeSpecRef))
    }
}

pub struct AttributeSpecRef;

impl AttributeSpecRef {
    pub fn variability(&self) -> Variability {
        Variability::Varying
    }

    pub fn type_name(&self) -> Option<ValueTypeName> {
        Some(ValueTypeName)
    }
}

pub struct ValueTypeName;

/// Writing into a manifest: never reached, since every set here names its manifest.
pub struct AttributeSpec;

impl AttributeSpec {
    pub fn new(_: &mut Data, _: Path, _: ValueTypeName, _: Variability, _: bool) -> Result<AttributeSpec, EditError> {
        unreachable!("no manifest is generated")
    }
}

pub struct AttributeSpecMut;

impl AttributeSpecMut {
    pub fn get(_: &mut Data, _: Path) -> Option<AttributeSpecMut> {
        unreachable!("no manifest is generated")
    }

    pub fn set_time_sample(&mut self, _: f64, _: Value) -> Result<(), EditError> {
        unreachable!("no manifest is generated")
    }
}
