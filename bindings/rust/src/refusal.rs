//! What refuses a call.

use std::error::Error;
use std::fmt;

/// Why a call was refused. A refused call wrote nothing, and the set that stood still stands.
///
/// Each variant is one of the library's numbers. Where several apply to a call, the first in the order that the call
/// names is given.
///
/// ```
/// use tavitrozy::{ClipTime, Refusal};
///
/// let refusal = tavitrozy::name(b"no run of hashes", ClipTime(1.0)).unwrap_err();
/// assert_eq!(refusal, Refusal::UnreadableTemplate);
/// assert_eq!(refusal.number(), 6);
/// assert_eq!(refusal.to_string(), "a pattern without #, with a # too many, or with too wide a run of them (6)");
/// ```
#[non_exhaustive]
#[derive(Clone, Copy, Debug, PartialEq, Eq, Hash)]
pub enum Refusal {
    /// 1: a clip count or an input list above its limit, paired lists of unlike length, clip ends unlike the clips in number,
    /// sample counts unlike the sets in number or not adding up.
    Misshapen,
    /// 2: a time, or a template's or retiming's number, not finite; a time beyond 2^40 (also after expansion or
    /// retiming); a NaN as a value.
    Unstorable,
    /// 3: a clip number not finite, negative, not whole or not below the clip count.
    NoClipNumber,
    /// 4: two equal starts (-0.0 and 0.0 are equal).
    EqualStarts,
    /// 5: three knots of one stage time (two are a jump, and fine).
    ThreeEqualKnots,
    /// 6: a pattern without `#`, with a `#` too many, or with too wide a run of them.
    UnreadableTemplate,
    /// 7: stride <= 0, end < start, |offset| > stride.
    DisorderedTemplate,
    /// 8: a 257th clip from a template.
    TooManyClips,
    /// 9: samples not strictly ascending within a clip, clip ends falling or not closing the list, a mark not allowed in
    /// its place.
    BadSamples,
    /// 10: a stage time asked about that is not finite.
    TimeNotFinite,
    /// 20: no set stands, or none of that name.
    NoSet,
    /// 21: no longer given, since a set may be retimed again; up to 0.2.0: the set is already retimed.
    AlreadyRetimed,
    /// 22: the shortest of the output lists is shorter than the reply.
    NoRoom,
    /// 23: a 17th set, a second set of one name, a name above 255 bytes, an order list above 255 names or whose name ends fall
    /// or do not close it.
    BadNames,
}

impl Refusal {
    /// All of them, by number.
    pub const ALL: [Refusal; 14] = [
        Refusal::Misshapen,
        Refusal::Unstorable,
        Refusal::NoClipNumber,
        Refusal::EqualStarts,
        Refusal::ThreeEqualKnots,
        Refusal::UnreadableTemplate,
        Refusal::DisorderedTemplate,
        Refusal::TooManyClips,
        Refusal::BadSamples,
        Refusal::TimeNotFinite,
        Refusal::NoSet,
        Refusal::AlreadyRetimed,
        Refusal::NoRoom,
        Refusal::BadNames,
    ];

    /// The library's number: 1 to 10 for the input, 20 to 22 for the state, 23 for a dispatcher's names.
    #[must_use]
    pub const fn number(self) -> u8 {
        match self {
            Refusal::Misshapen => 1,
            Refusal::Unstorable => 2,
            Refusal::NoClipNumber => 3,
            Refusal::EqualStarts => 4,
            Refusal::ThreeEqualKnots => 5,
            Refusal::UnreadableTemplate => 6,
            Refusal::DisorderedTemplate => 7,
            Refusal::TooManyClips => 8,
            Refusal::BadSamples => 9,
            Refusal::TimeNotFinite => 10,
            Refusal::NoSet => 20,
            Refusal::AlreadyRetimed => 21,
            Refusal::NoRoom => 22,
            Refusal::BadNames => 23,
        }
    }

    /// The refusal of a number, if it is one of the library's.
    #[must_use]
    pub fn of_number(number: u8) -> Option<Refusal> {
        Refusal::ALL.into_iter().find(|refusal| refusal.number() == number)
    }

    /// What the number means, in the words of tavitrozy.h.
    fn meaning(self) -> &'static str {
        match self {
            Refusal::Misshapen => {
                "a clip count or an input list above its limit, paired lists of unlike length, clip ends unlike the clips \
                 in number, sample counts unlike the sets in number or not adding up"
            }
            Refusal::Unstorable => {
                "a time, or a template's or retiming's number, not finite; a time beyond 2^40 (also after expansion or \
                 retiming); a NaN under mark 0"
            }
            Refusal::NoClipNumber => "a clip number not finite, negative, not whole or not below the clip count",
            Refusal::EqualStarts => "two equal starts (-0.0 and 0.0 are equal)",
            Refusal::ThreeEqualKnots => "three knots of one x (two are a jump, and fine)",
            Refusal::UnreadableTemplate => "a pattern without #, with a # too many, or with too wide a run of them",
            Refusal::DisorderedTemplate => "stride <= 0, end < start, |offset| > stride",
            Refusal::TooManyClips => "a 257th clip from a template",
            Refusal::BadSamples => {
                "samples not strictly ascending within a clip, clip ends falling or not closing the list, a mark not \
                 allowed in its place"
            }
            Refusal::TimeNotFinite => "a stage time asked about that is not finite",
            Refusal::NoSet => "no set stands, or none of that name",
            Refusal::AlreadyRetimed => "no longer given; up to 0.2.0: the set is already retimed",
            Refusal::NoRoom => "the shortest of the output lists is shorter than the reply",
            Refusal::BadNames => {
                "a 17th set, a second set of one name, a name above 255 bytes, an order list above 255 names or whose name \
                 ends fall or do not close it"
            }
        }
    }

    /// A reply that carries the number 0, or the refusal that it carries.
    pub(crate) fn checked<T>(number: u8, reply: T) -> Result<T, Refusal> {
        if number == 0 {
            return Ok(reply);
        }
        let unknown =
            || panic!("the library refuses with {number}: it is not the version that this crate was written for");
        Err(Refusal::of_number(number).unwrap_or_else(unknown))
    }
}

impl fmt::Display for Refusal {
    fn fmt(&self, f: &mut fmt::Formatter<'_>) -> fmt::Result {
        write!(f, "{} ({})", self.meaning(), self.number())
    }
}

impl Error for Refusal {}
