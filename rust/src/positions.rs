//! Round numbers, indices of participants, the quorum, and the set of the participants' keys.

use std::fmt;

/// A period with one set of participants.
#[derive(Clone, Copy, Debug, PartialEq, Eq, PartialOrd, Ord, Hash)]
pub struct Epoch(pub u64);

impl Epoch {
    /// The epoch of this number, the first being 0.
    pub const fn new(epoch: u64) -> Self {
        Epoch(epoch)
    }

    /// The first epoch.
    pub const fn zero() -> Self {
        Epoch(0)
    }

    /// The number of the epoch.
    pub const fn get(self) -> u64 {
        self.0
    }
}

impl fmt::Display for Epoch {
    fn fmt(&self, f: &mut fmt::Formatter<'_>) -> fmt::Result {
        self.0.fmt(f)
    }
}

/// A view within an epoch: one leader's turn to propose.
#[derive(Clone, Copy, Debug, PartialEq, Eq, PartialOrd, Ord, Hash)]
pub struct View(pub u64);

impl View {
    /// The view of this number, the first being 0.
    pub const fn new(view: u64) -> Self {
        View(view)
    }

    /// The first view of an epoch.
    pub const fn zero() -> Self {
        View(0)
    }

    /// The number of the view.
    pub const fn get(self) -> u64 {
        self.0
    }
}

impl fmt::Display for View {
    fn fmt(&self, f: &mut fmt::Formatter<'_>) -> fmt::Result {
        self.0.fmt(f)
    }
}

/// A round number: a view of an epoch. [`crate::round::Round`] is what happens in it.
#[derive(Clone, Copy, Debug, PartialEq, Eq, PartialOrd, Ord, Hash)]
pub struct Round {
    /// The epoch that the round is in.
    pub epoch: Epoch,
    /// The view that the round is of.
    pub view: View,
}

impl Round {
    /// The round of a view in an epoch.
    pub const fn new(epoch: Epoch, view: View) -> Self {
        Round { epoch, view }
    }
}

impl fmt::Display for Round {
    /// The epoch and the view, with a blank between them.
    fn fmt(&self, f: &mut fmt::Formatter<'_>) -> fmt::Result {
        write!(f, "{} {}", self.epoch, self.view)
    }
}

/// The index of a participant: its key's place among all keys in ascending order, which
/// [`Set::index`] gives. It isn't the place in the list that a set was made of.
#[derive(Clone, Copy, Debug, PartialEq, Eq, PartialOrd, Ord, Hash)]
pub struct Participant(pub u32);

impl Participant {
    /// The participant at this place, the first being 0. Whether there is one, the set says.
    pub const fn new(index: u32) -> Self {
        Participant(index)
    }

    /// The participant's place, the first being 0.
    pub const fn get(self) -> u32 {
        self.0
    }
}

impl From<Participant> for usize {
    fn from(participant: Participant) -> usize {
        participant.0 as usize
    }
}

impl fmt::Display for Participant {
    fn fmt(&self, f: &mut fmt::Formatter<'_>) -> fmt::Result {
        self.0.fmt(f)
    }
}

/// How many votes make a certificate among `n` participants: `n - (n - 1) / 3`, where a division
/// drops the remainder. Of no participants it is 0.
///
/// ```
/// assert_eq!([1, 3, 4, 5, 7, 100].map(batcher::quorum), [1, 3, 3, 4, 5, 67]);
/// ```
pub const fn quorum(n: u32) -> u32 {
    n - n.saturating_sub(1) / 3
}

/// The participants' public keys in ascending order, each once. The place of a key is its
/// participant's index.
///
/// ```
/// use batcher::{Participant, Set, SetFault};
///
/// let set = Set::new(vec!["eve", "ada"])?;
/// assert_eq!(set.index(&"eve"), Some(Participant(1)));
/// assert_eq!(set.key(Participant(0)), Some(&"ada"));
/// assert!(set.iter().eq([(Participant(0), &"ada"), (Participant(1), &"eve")]));
/// assert_eq!(Set::new(vec!["ada", "ada"]), Err(SetFault::Duplicate));
/// # Ok::<(), SetFault>(())
/// ```
#[derive(Clone, Debug, PartialEq, Eq, Hash)]
pub struct Set<K> {
    keys: Vec<K>,
}

impl<K: Ord> Set<K> {
    /// The set of these keys, in whatever order they come.
    ///
    /// # Errors
    ///
    /// Where there are 2^32 keys or more, or else where one comes twice.
    pub fn new(mut keys: Vec<K>) -> Result<Self, SetFault> {
        if u32::try_from(keys.len()).is_err() {
            return Err(SetFault::TooMany);
        }
        keys.sort_unstable();
        if keys.windows(2).any(|pair| pair[0] == pair[1]) {
            return Err(SetFault::Duplicate);
        }
        Ok(Set { keys })
    }

    /// The participant whose key this is.
    pub fn index(&self, key: &K) -> Option<Participant> {
        let index = self.keys.binary_search(key).ok()?;
        Some(Participant(index as u32))
    }

    /// The same, looked for at a place first at which it is likely to be.
    pub fn index_near(&self, key: &K, likely: Participant) -> Option<Participant> {
        match self.key(likely) {
            Some(other) if other == key => Some(likely),
            _ => self.index(key),
        }
    }
}

impl<K> Set<K> {
    /// How many participants there are.
    pub fn len(&self) -> u32 {
        self.keys.len() as u32
    }

    /// Whether there is no participant. No round is made of such a set.
    pub fn is_empty(&self) -> bool {
        self.keys.is_empty()
    }

    /// The participant's key.
    pub fn key(&self, participant: Participant) -> Option<&K> {
        self.keys.get(usize::from(participant))
    }

    /// The keys in the order of their participants.
    pub fn as_slice(&self) -> &[K] {
        &self.keys
    }

    /// Each participant with its key.
    pub fn iter(&self) -> impl ExactSizeIterator<Item = (Participant, &K)> {
        let each = self.keys.iter().enumerate();
        each.map(|(index, key)| (Participant(index as u32), key))
    }
}

/// Why keys don't make a set.
#[derive(Clone, Copy, Debug, PartialEq, Eq, Hash)]
pub enum SetFault {
    /// A key comes twice.
    Duplicate,
    /// There are 2^32 keys or more.
    TooMany,
}

impl fmt::Display for SetFault {
    fn fmt(&self, f: &mut fmt::Formatter<'_>) -> fmt::Result {
        f.write_str(match self {
            SetFault::Duplicate => "duplicate key",
            SetFault::TooMany => "too many keys",
        })
    }
}

impl std::error::Error for SetFault {}
