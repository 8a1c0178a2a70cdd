//! `crate::pcp`: clip.rs and clip_manifest.rs as published, and stand-ins for the modules beside them (README.md says
//! which).

use std::sync::Arc;

use crate::sdf::{DataError, EditError, Path, PathParseError};

include!(concat!(env!("OUT_DIR"), "/pcp_files.rs"));

#[derive(Debug, Clone, Copy, PartialEq, Eq, Hash)]
pub struct LayerId(pub usize);

#[derive(Debug, Clone, Copy, PartialEq, Eq, Hash)]
pub struct LayerStackId;

#[derive(Debug)]
pub struct QueryError;

#[derive(Debug)]
pub struct ClipLoad;

impl ClipLoad {
    pub fn new(_: String, _: Arc<str>) -> Self {
        ClipLoad
    }
}

macro_rules! turns_into_query_error {
    ($($type:ty)*) => {$(
        impl From<$type> for QueryError {
            fn from(_: $type) -> Self {
                QueryError
            }
        }
    )*};
}

turns_into_query_error!(ClipLoad PathParseError DataError EditError);

#[derive(Debug)]
pub enum CompositionDiagnostic {
    UnreadableClip { asset_path: String, clip_set: String, prim_path: Path, reason: String },
}

/// No value holds an asset path, so `reaches` says no.
pub mod asset_resolve {
    use super::diagnostics::Diagnostics;
    use super::layer_graph::LayerView;
    use super::{LayerStackId, Path};
    use crate::sdf::Layer;
    use crate::vt::Value;

    #[derive(Debug, Clone, Copy, PartialEq)]
    pub struct AssetMode;

    impl AssetMode {
        pub fn reaches(&self, _: &Value) -> bool {
            false
        }
    }

    pub struct AssetSite;

    impl AssetSite {
        pub fn in_clip(_: &Layer, _: LayerStackId, _: &Path) -> Self {
            AssetSite
        }
    }

    pub fn resolve_values(
        _: &LayerView<'_>,
        value: Value,
        _: Option<&AssetSite>,
        _: AssetMode,
        _: &mut Diagnostics,
    ) -> Value {
        value
    }
}

pub mod diagnostics {
    use super::CompositionDiagnostic;

    #[derive(Debug, Default)]
    pub struct Diagnostics(Vec<CompositionDiagnostic>);

    impl Diagnostics {
        pub fn report(&mut self, one: CompositionDiagnostic) {
            self.0.push(one);
        }

        pub fn extend(&mut self, others: Diagnostics) {
            self.0.extend(others.0);
        }

        pub fn is_empty(&self) -> bool {
            self.0.is_empty()
        }
    }
}

pub mod index_cache {
    use crate::vt::Value;

    /// A block is none.
    pub fn block_to_none(value: Value) -> Option<Value> {
        match value {
            Value::ValueBlock => None,
            other => Some(other),
        }
    }
}

/// The graph holds every layer of a set: its manifest, called `m`, then its clips, called `c0`, `c1` and so on.
pub mod layer_graph {
    use std::sync::Arc;

    use super::LayerId;
    use crate::sdf::Layer;

    pub struct LayerView<'a> {
        pub layers: &'a [Layer],
    }

    pub type LayerGraph = LayerView<'static>;

    pub enum LoadFailure {
        Unreadable(Arc<str>),
        Unresolved,
    }

    pub struct Registry;

    impl Registry {
        pub fn in_memory_identifier(&self, path: &str) -> String {
            path.to_owned()
        }
    }

    impl LayerView<'_> {
        pub fn id_of(&self, identifier: &str) -> Option<LayerId> {
            let id = match identifier.strip_prefix('c') {
                Some(clip) => clip.parse::<usize>().ok()? + 1,
                None => 0,
            };
            (id < self.layers.len()).then_some(LayerId(id))
        }

        pub fn layer(&self, id: LayerId) -> &Layer {
            &self.layers[id.0]
        }

        pub fn identifier(&self, id: LayerId) -> &str {
            &self.layers[id.0].identifier
        }

        pub fn blocking_failure(&self, _: &str) -> Option<&LoadFailure> {
            None
        }

        pub fn absolute_path(&self, _: LayerId, path: &str) -> String {
            path.to_owned()
        }

        pub fn layer_registry(&self) -> Registry {
            Registry
        }
    }
}

pub mod prim_graph {
    use std::marker::PhantomData;

    use super::{LayerStackId, Path};

    pub struct Node<'a>(PhantomData<&'a ()>);

    impl Node<'_> {
        pub fn layer_stack_id(&self) -> LayerStackId {
            LayerStackId
        }

        pub fn path(&self) -> &Path {
            unreachable!("no node is asked")
        }
    }
}

pub mod prim_resolve {
    use crate::vt::Value;

    #[derive(Debug, Clone, PartialEq)]
    pub enum Supplied {
        Blocked,
        Opaque,
    }

    impl Supplied {
        /// Blocked for a block, opaque for a number.
        pub fn classify<'a>(value: &'a Value, _: &dyn Fn(&'a Value) -> &'a Value) -> Supplied {
            match value {
                Value::ValueBlock => Supplied::Blocked,
                _ => Supplied::Opaque,
            }
        }
    }
}

pub mod value_resolve {
    #[derive(Debug, Clone, Copy, PartialEq)]
    pub enum ValueState {
        Absent,
        Present,
        Blocked,
    }
}
