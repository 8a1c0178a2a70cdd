//! The order list of a dispatcher's questions.

use std::borrow::Cow;

/// An order list: the names of sets, from the first that may answer to the last. Names that no set has are passed over, and
/// a name that is repeated counts once; sets that are not named do not answer.
///
/// A list without names is one, and no set answers by it. A question without a list goes by the byte order of all names.
///
/// ```
/// use tavitrozy::Order;
///
/// let order = Order::of_names(["fine", "coarse"]);
/// assert_eq!((order.names(), order.ends()), (&b"finecoarse"[..], &[4, 10][..]));
/// ```
#[derive(Clone, Debug)]
pub struct Order<'a> {
    names: Cow<'a, [u8]>,
    ends: Cow<'a, [u64]>,
}

impl Order<'static> {
    /// The list of these names: at most 255, each of at most 255 bytes, or it is refused with 23 where it is asked with.
    #[must_use]
    pub fn of_names<N: AsRef<[u8]>>(names: impl IntoIterator<Item = N>) -> Self {
        let (mut bytes, mut ends) = (Vec::new(), Vec::new());
        for name in names {
            bytes.extend(name.as_ref());
            ends.push(bytes.len() as u64);
        }
        Order { names: Cow::Owned(bytes), ends: Cow::Owned(ends) }
    }
}

impl<'a> Order<'a> {
    /// The list as it is lent: the bytes of all names one after the other, and the place where each name ends. Ends that fall
    /// or do not close the list are refused with 23 where it is asked with.
    #[must_use]
    pub const fn of_lists(names: &'a [u8], ends: &'a [u64]) -> Self {
        Order { names: Cow::Borrowed(names), ends: Cow::Borrowed(ends) }
    }

    /// The bytes of all names.
    #[must_use]
    pub fn names(&self) -> &[u8] {
        &self.names
    }

    /// Where each name ends.
    #[must_use]
    pub fn ends(&self) -> &[u64] {
        &self.ends
    }
}
