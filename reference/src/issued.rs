//! The list of issued challenges. An opening spends its challenge and the successors that its
//! retries may put in force; none of them may be spent twice.

use crate::grown;

/// Octets of an entry, and of a place in the buffer.
pub const WIDTH: usize = 8;
/// The most places that a buffer may have.
pub const MOST_PLACES: usize = 4096;
/// One count for each octet that an entry may end in.
pub const COUNTS: usize = 256;

/// One issued challenge.
pub type Entry = [u8; WIDTH];

/// The list as the caller lends it.
#[derive(Debug, PartialEq, Eq)]
pub struct Issued<'a> {
    /// The buffer. The entries are its first `used` places; the rest has no meaning.
    pub list: &'a mut [u8],
    /// The number of places used.
    pub used: usize,
    /// How many entries end in each octet.
    pub counts: &'a mut [u16],
}

impl Issued<'_> {
    /// Adds entries behind the used ones and counts anew. Refusal 24 for a list or counts that
    /// are not sound, then 16 for an entry that is there, then 17 for too few places left; then
    /// nothing changes.
    pub fn spend(&mut self, entries: &[Entry]) -> Result<(), u8> {
        if !self.is_sound() {
            return Err(24);
        }
        if entries.iter().any(|entry| self.holds(entry)) {
            return Err(16);
        }
        if entries.len() > self.places() - self.used {
            return Err(17);
        }
        for entry in entries {
            let start = self.used * WIDTH;
            self.list[start..start + WIDTH].copy_from_slice(entry);
            self.used += 1;
        }
        for octet in 0..=255 {
            // At most 4,096.
            self.counts[usize::from(octet)] = self.ending_in(octet) as u16;
        }
        Ok(())
    }

    /// Whole places, not too many of them nor too few for those used, and 256 counts that are
    /// true of the entries.
    fn is_sound(&self) -> bool {
        self.list.len().is_multiple_of(WIDTH)
            && self.places() <= MOST_PLACES
            && self.used <= self.places()
            && self.counts.len() == COUNTS
            && (0..=255).all(|octet| self.count(octet) == self.ending_in(octet))
    }

    fn places(&self) -> usize {
        self.list.len() / WIDTH
    }

    fn entries(&self) -> impl Iterator<Item = &[u8]> {
        self.list.chunks(WIDTH).take(self.used)
    }

    fn holds(&self, entry: &Entry) -> bool {
        self.entries().any(|used| used == entry)
    }

    /// The lent count of an octet.
    fn count(&self, octet: u8) -> usize {
        usize::from(self.counts[usize::from(octet)])
    }

    /// How many entries end in an octet.
    fn ending_in(&self, octet: u8) -> usize {
        self.entries()
            .filter(|entry| entry.last() == Some(&octet))
            .count()
    }
}

/// The entries that an opening spends: its challenge, then one successor for each retry.
pub fn entries_of(challenge: &Entry, retries: u8) -> Vec<Entry> {
    let mut entries = vec![*challenge];
    for _ in 0..retries {
        entries.push(grown(&entries[entries.len() - 1]));
    }
    entries
}

#[cfg(test)]
mod tests {
    use super::*;
    use crate::authenticator::{self, Phase, Terms, REFUSED};

    const C: Entry = [1, 2, 3, 4, 5, 6, 7, 8];
    const OTHER: Entry = [0x11, 0x12, 0x13, 0x14, 0x15, 0x16, 0x17, 0x18];

    /// C with another first octet.
    fn c(first: u8) -> Entry {
        [first, 2, 3, 4, 5, 6, 7, 8]
    }

    #[derive(Clone, Debug, PartialEq)]
    struct Lent {
        list: Vec<u8>,
        used: usize,
        counts: Vec<u16>,
    }

    impl Lent {
        /// Places of octets 00, the first of them used, with true counts.
        fn new(places: usize, entries: &[Entry]) -> Lent {
            let mut list = entries.concat();
            list.resize(places * 8, 0);
            let mut counts = vec![0; 256];
            for entry in entries {
                counts[usize::from(entry[7])] += 1;
            }
            Lent {
                list,
                used: entries.len(),
                counts,
            }
        }

        /// An opening with a reply buffer of any size; refused, it leaves all as it was.
        fn open_into(&mut self, room: usize, challenge: &Entry, retries: Option<u8>) -> u8 {
            let before = self.clone();
            let mut reply = vec![0xAA; room];
            let mut issued = Issued {
                list: &mut self.list,
                used: self.used,
                counts: &mut self.counts,
            };
            let terms = Terms {
                retries,
                ..Terms::default()
            };
            let opening = authenticator::open(9, challenge, &terms, 255, &mut issued, &mut reply);
            self.used = issued.used;
            if opening.refusal > 0 {
                assert_eq!(*self, before);
                assert_eq!(reply, vec![0xAA; room]);
                assert_eq!((opening.written, opening.conversation), (0, REFUSED));
            } else {
                assert_eq!(opening.written, 13);
                assert_eq!(reply[..5], [1, 9, 0, 13, 8]);
                assert_eq!(reply[5..13], *challenge);
                assert_eq!(opening.conversation.challenge, *challenge);
                assert_eq!(opening.conversation.phase, Phase::Response);
            }
            opening.refusal
        }

        fn open(&mut self, challenge: &Entry, retries: u8) -> u8 {
            self.open_into(17, challenge, Some(retries))
        }
    }

    #[test]
    fn cr03_1_unused_places_have_no_meaning_and_stay() {
        let mut lent = Lent::new(2, &[]);
        lent.list[..8].copy_from_slice(&C);
        lent.list[8..].fill(0xEE);
        assert_eq!(lent.open(&C, 0), 0);
        assert_eq!(lent.used, 1);
        assert_eq!(lent.list, [C, [0xEE; 8]].concat());
    }

    #[test]
    fn cr03_2_4_5_entries_in_order_with_their_counts() {
        let mut lent = Lent::new(4, &[]);
        assert_eq!(lent.open(&C, 2), 0);
        assert_eq!(lent, Lent::new(4, &[C, c(0x18), c(0x2F)]));
        assert_eq!((lent.used, lent.counts[8]), (3, 3));
        assert_eq!(lent.counts.iter().sum::<u16>(), 3);
        let mut lent = Lent::new(4, &[OTHER]);
        assert_eq!(lent.open_into(17, &c(0xE9), None), 0);
        assert_eq!(lent, Lent::new(4, &[OTHER, c(0xE9), c(0), c(0x17)]));
        assert_eq!((lent.counts[8], lent.counts[0x18]), (3, 1));
        assert_eq!(lent.counts.iter().sum::<u16>(), 4);
    }

    #[test]
    fn cr03_3_each_entry_is_sought() {
        let mut lent = Lent::new(8, &[OTHER, c(0x18)]);
        assert_eq!(lent.open(&C, 1), 16);
        assert_eq!(lent.open(&C, 7), 16);
        assert_eq!(lent.open(&OTHER, 0), 16);
        assert_eq!(lent.open(&C, 0), 0);
        assert_eq!(lent, Lent::new(8, &[OTHER, c(0x18), C]));
        // Any octet that differs makes another entry.
        for place in 0..8 {
            let mut near = C;
            near[place] ^= 0x80;
            let mut lent = Lent::new(2, &[near]);
            assert_eq!(lent.open(&C, 0), 0);
            assert_eq!(lent.open(&near, 0), 16);
        }
    }

    #[test]
    fn cr03_6_whole_places_at_most_4096() {
        for octets in [1, 7, 9, 12, 15, 17, 32_767, 32_769, 32_776, 65_536] {
            let mut lent = Lent::new(0, &[]);
            lent.list.resize(octets, 0);
            assert_eq!(lent.open(&C, 0), 24, "{octets}");
        }
        assert_eq!(Lent::new(0, &[]).open(&C, 0), 17);
        let mut lent = Lent::new(4096, &[]);
        assert_eq!(lent.open(&C, 7), 0);
        assert_eq!(lent.used, 8);
    }

    #[test]
    fn cr03_7_used_and_counts() {
        for used in [3, 4, usize::MAX] {
            let mut lent = Lent::new(2, &[C, OTHER]);
            lent.used = used;
            assert_eq!(lent.open(&c(9), 0), 24);
        }
        for counts in [0, 1, 255, 257, 512] {
            let mut lent = Lent::new(2, &[]);
            lent.counts.resize(counts, 0);
            assert_eq!(lent.open(&C, 0), 24, "{counts}");
        }
        for octet in 0..256 {
            let mut lent = Lent::new(4, &[C, OTHER]);
            lent.counts[octet] += 1;
            assert_eq!(lent.open(&c(9), 0), 24);
            lent.counts[octet] -= 1;
            assert_eq!(lent.open(&c(9), 0), 0);
        }
        let mut lent = Lent::new(4, &[C, OTHER]);
        lent.counts[8] = 0;
        assert_eq!(lent.open(&c(9), 0), 24);
        lent.counts[9] = 1;
        assert_eq!(lent.open(&c(9), 0), 24);
    }

    #[test]
    fn cr03_8_spent_before_room() {
        let mut lent = Lent::new(2, &[C]);
        assert_eq!(lent.open(&C, 1), 16);
        assert_eq!(lent.open(&OTHER, 1), 17);
        assert_eq!(lent.open(&OTHER, 0), 0);
        assert_eq!(lent, Lent::new(2, &[C, OTHER]));
    }

    #[test]
    fn cr03_9_11_order_and_nothing_written() {
        let mut lent = Lent::new(1, &[C]);
        lent.counts[0] = 1;
        assert_eq!(lent.open_into(16, &C, Some(8)), 13);
        assert_eq!(lent.open_into(16, &C, Some(7)), 2);
        assert_eq!(lent.open_into(16, &C, None), 2);
        assert_eq!(lent.open_into(17, &C, Some(7)), 24);
        lent.counts[0] = 0;
        assert_eq!(lent.open_into(17, &C, Some(7)), 16);
        assert_eq!(lent.open_into(17, &OTHER, Some(7)), 17);
    }

    #[test]
    fn cr03_10_a_full_list_stays_full() {
        let mut lent = Lent::new(8, &[]);
        assert_eq!(lent.open(&C, 7), 0);
        for first in 0..=255 {
            let mut challenge = OTHER;
            challenge[0] = first;
            assert_eq!(lent.open(&challenge, 0), 17);
        }
        assert_eq!(lent.open(&c(0xA2), 0), 16);
    }

    #[test]
    fn cr03_12_the_entries_of_an_opening_differ() {
        for first in 0..=255 {
            let entries = entries_of(&c(first), 7);
            for (place, entry) in entries.iter().enumerate() {
                assert!(!entries[..place].contains(entry));
            }
            let mut lent = Lent::new(8, &[]);
            assert_eq!(lent.open(&c(first), 7), 0);
            assert_eq!(lent, Lent::new(8, &entries));
        }
    }

    /// The greatest list, filled by openings; each count passes an octet's range.
    #[test]
    fn four_thousand_places() {
        let mut lent = Lent::new(4096, &[]);
        for number in 0..512u16 {
            let [high, low] = number.to_be_bytes();
            assert_eq!(lent.open(&[0, high, low, 0, 0, 0, 0, 8], 7), 0);
        }
        assert_eq!((lent.used, lent.counts[8]), (4096, 4096));
        assert_eq!(lent.open(&C, 0), 17);
        assert_eq!(lent.open(&[161, 1, 255, 0, 0, 0, 0, 8], 0), 16);
    }
}
