//! Prepared sets, as the Rust holds them and by the document, and the slots in which a text keeps them.

use crate::calls::{Filling, PREPARED};
use crate::notes::Notes;
use crate::numbers::{self, Refusal};
use crate::pcp::clip::{ClipAnchor, ClipSet, ResolvedClipSet};
use crate::pcp::{LayerId, LayerStackId};
use crate::plain;
use crate::sdf::{AssetPath, LayerOffset, Path};
use crate::text::Line;

pub fn clip_path(clip: usize) -> AssetPath {
    AssetPath::new(format!("c{clip}"))
}

/// A set as the Rust holds it: prepared, or standing and perhaps retimed.
#[derive(Clone)]
pub struct Prepared {
    pub resolved: ResolvedClipSet,
    /// The manifest, which the Rust leaves where it was authored, moving its block times at each look by the one offset that
    /// it knows. So that offset is the last accepted retiming's, and the block times here are those that stood before it,
    /// moved by hand by all earlier ones.
    pub filling: Filling,
    /// The same set by the document.
    pub plain: plain::Set,
    /// How often it was retimed.
    in_a_row: u64,
}

/// Clips, starts, knots and block times, each double by its bits.
pub type Bits = (usize, Vec<(u64, usize)>, Vec<(u64, u64)>, Vec<u64>);

impl Prepared {
    /// A set that no number refuses, not retimed yet.
    pub fn new(mut set: ClipSet, filling: &Filling, plain: plain::Set) -> Self {
        // A template's names may fall together; a clip is known here by its number.
        set.asset_paths = (0..set.asset_paths.len()).map(clip_path).collect();
        let source = ClipAnchor { layer: LayerId(0), prim_path: Path::new("/a").unwrap(), stack: LayerStackId };
        let resolved = ResolvedClipSet { set, source, manifest_layer: None, active_offset: LayerOffset::IDENTITY };
        Prepared { resolved, filling: filling.clone(), plain, in_a_row: 0 }
    }

    /// Moves the set as the retiming before left it, where no number refuses that.
    pub fn retime(&mut self, offset: f64, scale: f64, notes: &mut Notes) -> Result<(), Refusal> {
        numbers::retiming(offset, scale)?;
        let moving = LayerOffset::new(offset, scale);
        let mut moved = self.resolved.set.clone();
        moved.retime_stage_times(moving);
        let starts: Vec<f64> = moved.active.iter().map(|start| start.0).collect();
        let knots: Vec<f64> = moved.times.iter().map(|knot| knot.x).collect();
        let before = self.blocks();
        numbers::made(&starts, &knots, &moved_blocks(&before, moving))?;
        self.resolved.set = moved;
        self.resolved.active_offset = moving;
        self.filling.blocks = before;
        self.plain = plain::retime(&self.plain, offset, scale);
        self.in_a_row += 1;
        notes.counts.chains[0] += u64::from(self.in_a_row == 2);
        notes.counts.chains[1] += u64::from(self.in_a_row == 3);
        if notes.check {
            notes.compare("retimed set", self.rust_bits(), self.document_bits());
        }
        Ok(())
    }

    /// The block times as they stand.
    pub fn blocks(&self) -> Vec<f64> {
        moved_blocks(&self.filling.blocks, self.resolved.active_offset)
    }

    pub fn write(&self, out: &mut Line) {
        let set = &self.resolved.set;
        out.word("set").number(set.asset_paths.len() as u64);
        out.word("starts").number(set.active.len() as u64);
        for &(time, clip) in &set.active {
            out.double(time).number(clip as u64);
        }
        out.word("knots").number(set.times.len() as u64);
        for knot in &set.times {
            out.double(knot.x).double(knot.y);
        }
        out.word("bl").doubles(&self.blocks());
    }

    pub fn rust_bits(&self) -> Bits {
        let set = &self.resolved.set;
        let knots = set.times.iter().map(|knot| (knot.x, knot.y));
        bits_of(set.asset_paths.len(), &set.active, knots, &self.blocks())
    }

    pub fn document_bits(&self) -> Bits {
        let set = &self.plain;
        bits_of(set.clips, &set.starts, set.knots.iter().copied(), &set.filling.blocks)
    }
}

fn bits_of(clips: usize, starts: &[(f64, usize)], knots: impl Iterator<Item = (f64, f64)>, blocks: &[f64]) -> Bits {
    (
        clips,
        starts.iter().map(|start| (start.0.to_bits(), start.1)).collect(),
        knots.map(|(x, y)| (x.to_bits(), y.to_bits())).collect(),
        blocks.iter().map(|block| block.to_bits()).collect(),
    )
}

/// Block times moved by hand. The identity changes nothing, though its formula would turn -0.0 round.
fn moved_blocks(blocks: &[f64], moving: LayerOffset) -> Vec<f64> {
    let moved = |&block: &f64| if moving.is_identity() { block } else { moving.apply(block) };
    blocks.iter().map(moved).collect()
}

/// What a slot keeps, and what happened since it was prepared.
struct Kept {
    set: Prepared,
    /// Another set was installed.
    passed_over: bool,
    /// It was retimed on the desk, and not installed again since.
    retimed: bool,
}

/// The slots of a text. What happens on the desk never changes a set in them; it is only told, to be counted.
#[derive(Default)]
pub struct Slots {
    kept: [Option<Kept>; PREPARED],
    /// The slot whose set stands, as long as the slot keeps it.
    standing: Option<usize>,
}

/// Installings; those of a set prepared before another was installed; those of a set that was retimed since the last one.
pub type Installed = [u64; 3];

impl Slots {
    /// Puts a set in the place of the slot's.
    pub fn put(&mut self, slot: usize, set: Prepared) {
        self.kept[slot] = Some(Kept { set, passed_over: false, retimed: false });
        self.standing = self.standing.filter(|&from| from != slot);
    }

    pub fn get(&self, slot: usize) -> Option<&Prepared> {
        self.kept[slot].as_ref().map(|kept| &kept.set)
    }

    /// A copy of the slot's set for the desk, counted.
    pub fn hand_out(&mut self, slot: usize, installed: &mut Installed) -> Option<Prepared> {
        let kept = self.kept[slot].as_mut()?;
        let again = std::mem::take(&mut kept.retimed);
        installed[0] += 1;
        installed[1] += u64::from(kept.passed_over);
        installed[2] += u64::from(again);
        let set = kept.set.clone();
        self.installed(Some(slot));
        Some(set)
    }

    /// A set was installed, out of a slot or by an acceptance.
    pub fn installed(&mut self, from: Option<usize>) {
        let others = self.kept.iter_mut().enumerate().filter(|(slot, _)| Some(*slot) != from);
        others.filter_map(|(_, kept)| kept.as_mut()).for_each(|kept| kept.passed_over = true);
        self.standing = from;
    }

    /// The standing set was retimed.
    pub fn retimed(&mut self) {
        if let Some(kept) = self.standing.and_then(|slot| self.kept[slot].as_mut()) {
            kept.retimed = true;
        }
    }
}
