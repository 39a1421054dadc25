//! The list of issued challenges.

use crate::{sys, Refusal};
use std::fmt;

/// The challenges that were issued. A Response that was recorded at one authenticator must not be
/// accepted by another, so all that know the same accounts share one list, one opening at a time.
///
/// An opening with r retries spends r + 1 challenges, and a place for each: the list has room for
/// `places / (r + 1)` openings. Once it is full, openings are refused until it is emptied. The time
/// of an opening grows with the used places.
///
/// It is no `Clone`: of two copies neither would know what is issued by the other. To outlast a
/// restart, its [`as_bytes`](Issued::as_bytes) are stored after each opening, before the Challenge
/// is sent, and the list is made again by [`from_bytes`](Issued::from_bytes).
pub struct Issued(Vec<u8>);

impl Issued {
    /// An empty list of so many places; of [`LIST_PLACES`](crate::LIST_PLACES) if more are asked
    /// for.
    pub fn new(places: usize) -> Issued {
        let mut issued = Issued(vec![0; sys::list_size(places.min(sys::LIST_PLACES))]);
        issued.empty();
        issued
    }

    /// The list of stored bytes, those of a list that is no longer in use. Bytes that no list has
    /// are refused as [`Refusal::BadArgument`].
    pub fn from_bytes(bytes: &[u8]) -> Result<Issued, Refusal> {
        match sys::list_used(bytes) {
            sys::INVALID => Err(Refusal::BadArgument),
            _ => Ok(Issued(bytes.to_vec())),
        }
    }

    /// The bytes to be stored, used places and others.
    pub fn as_bytes(&self) -> &[u8] {
        &self.0
    }

    /// How many places it has.
    pub fn places(&self) -> usize {
        self.0.len().saturating_sub(sys::list_size(0)) / sys::CHALLENGE_SIZE
    }

    /// How many of them are used.
    pub fn used(&self) -> usize {
        sys::list_used(&self.0) as usize
    }

    /// How many of them are left.
    pub fn left(&self) -> usize {
        self.places().saturating_sub(self.used())
    }

    /// Empties the list. From then on a challenge may be issued that was issued before.
    pub fn empty(&mut self) {
        // It is refused for a bad size alone, and the list never has one.
        let number = sys::make_list(&mut self.0);
        debug_assert_eq!(number, sys::OK);
    }

    /// What an opening is passed.
    pub(crate) fn list(&mut self) -> &mut [u8] {
        &mut self.0
    }
}

impl fmt::Debug for Issued {
    fn fmt(&self, to: &mut fmt::Formatter<'_>) -> fmt::Result {
        to.debug_struct("Issued")
            .field("places", &self.places())
            .field("used", &self.used())
            .finish_non_exhaustive()
    }
}
