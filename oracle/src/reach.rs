//! A child of clip.rs: it alone reaches what clip.rs keeps private. Nothing is decided here.

use super::*;

pub(crate) type Map = HashMap<String, Value>;

/// The number of clips, the starts and the knots.
pub(crate) type Expanded = (usize, Vec<(f64, usize)>, Vec<gf::Vec2d>);

/// `parse_set` on one set's dictionary.
pub(crate) fn parse_set(set: &Map) -> Option<ClipSet> {
    ClipSet::parse_set("set", set)
}

/// `expand_template`: the starts and knots before `parse_set` looks for equal ones.
pub(crate) fn expand(set: &Map) -> Option<Expanded> {
    expand_template(set).map(|(paths, active, times)| (paths.len(), active, times))
}

/// `HashPattern`: the name at a clip time, none where the template is not readable.
pub(crate) fn name(template: &str, time: f64) -> Option<String> {
    HashPattern::parse(template).map(|pattern| pattern.format(time))
}

/// `stage_sample_times` over the sample times of each clip.
pub(crate) fn stage_sample_times(set: &ClipSet, per_clip: &[Vec<f64>]) -> Vec<f64> {
    set.stage_sample_times(per_clip)
}

/// Of ascending samples the last with time ≤ t; the first if none; nothing if there are none.
fn held(samples: &sdf::TimeSampleMap, time: f64) -> Option<Value> {
    let after = samples.partition_point(|(at, _)| *at <= time);
    samples.get(after.saturating_sub(1)).map(|(_, value)| value.clone())
}

/// A set with its layers, ready to be asked.
pub(crate) struct Asked {
    cache: ClipCache,
    diagnostics: Diagnostics,
    anchor: Path,
    prim: Path,
}

impl Default for Asked {
    fn default() -> Self {
        Asked::new()
    }
}

impl Asked {
    pub(crate) fn new() -> Self {
        Asked {
            cache: ClipCache::default(),
            diagnostics: Diagnostics::default(),
            anchor: Path::new("/a").unwrap(),
            prim: Path::new("/a").unwrap(),
        }
    }

    fn ask<R>(
        &mut self,
        layers: &[sdf::Layer],
        f: impl FnOnce(&mut ClipCache, &LayerView<'_>, &mut Diagnostics, &ClipQuery<'_>) -> Result<R, QueryError>,
    ) -> R {
        let query = ClipQuery {
            anchor: &self.anchor,
            attr_prim: &self.prim,
            suffix: ".x",
            assets: AssetMode,
        };
        let reply = f(&mut self.cache, &LayerView { layers }, &mut self.diagnostics, &query);
        assert!(self.cache.pending.is_empty() && self.diagnostics.is_empty(), "every layer is held");
        reply.expect("nothing here fails to load")
    }

    /// `sources_in_set`: whether the set has a schedule and its manifest declares the attribute.
    pub(crate) fn sources(&mut self, set: &ResolvedClipSet, layers: &[sdf::Layer]) -> bool {
        self.ask(layers, |cache, graph, notes, query| {
            cache.sources_in_set(graph, notes, set, query)
        })
    }

    /// `value_in_set`.
    pub(crate) fn value(&mut self, set: &ResolvedClipSet, layers: &[sdf::Layer], time: f64) -> Option<Value> {
        self.ask(layers, |cache, graph, notes, query| {
            cache.value_in_set(graph, notes, set, query, time, &held)
        })
    }

    /// `stage_samples_in_set`.
    pub(crate) fn stage_samples(&mut self, set: &ResolvedClipSet, layers: &[sdf::Layer]) -> Option<Vec<(f64, Supplied)>> {
        self.ask(layers, |cache, graph, notes, query| {
            cache.stage_samples_in_set(graph, notes, set, query)
        })
    }

    /// `untimed_answer_in_set`.
    pub(crate) fn untimed(&mut self, set: &ResolvedClipSet, layers: &[sdf::Layer]) -> ValueState {
        self.ask(layers, |cache, graph, notes, query| {
            cache.untimed_answer_in_set(graph, notes, set, query)
        })
    }
}
