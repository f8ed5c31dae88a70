//! Keys of actors (y, id) in rising order, and how lists of them are arranged. The order that a list must come to follows from its ranks, without a
//! comparison of keys.

use crate::rng::Rng;

/// y and id.
pub type Key = (i32, u32);

/// Four keys, each before the next.
#[derive(Clone, Copy, Debug, PartialEq, Eq, PartialOrd, Ord)]
pub enum Keys {
    /// They differ in y alone.
    Y,
    /// In the id alone, across the sign bit.
    Id,
    /// The larger y has the lower id.
    Against,
    /// Two of one y, two of the next, the lower ids there.
    Mixed,
    /// Neighbours at both ends of y.
    YEnds,
    /// The signs of y, and ids at their ends.
    Signs,
    /// Both ends of y with both ends of the id.
    Corners,
    /// They differ in other bytes of the id, and of y: a byte that counts less is larger.
    IdBytes,
    YBytes,
}

pub const KEYS: [Keys; 9] =
    [Keys::Y, Keys::Id, Keys::Against, Keys::Mixed, Keys::YEnds, Keys::Signs, Keys::Corners, Keys::IdBytes, Keys::YBytes];

impl Keys {
    pub fn keys(self) -> [Key; 4] {
        const LEAST: i32 = i32::MIN;
        const MOST: i32 = i32::MAX;
        match self {
            Keys::Y => [(-7, 5), (-6, 5), (3, 5), (4, 5)],
            Keys::Id => [(2, 1), (2, 0x7FFF_FFFF), (2, 0x8000_0000), (2, 0xFFFF_FFFF)],
            Keys::Against => [(-1, 9), (0, 6), (1, 4), (2, 1)],
            Keys::Mixed => [(4, 7), (4, 8), (5, 1), (5, 2)],
            Keys::YEnds => [(LEAST, 3), (LEAST + 1, 3), (MOST - 1, 3), (MOST, 3)],
            Keys::Signs => [(LEAST, 0xFFFF_FFFF), (-1, 0), (0, 0xFFFF_FFFF), (MOST, 0)],
            Keys::Corners => [(LEAST, 0), (LEAST, 0xFFFF_FFFF), (MOST, 0), (MOST, 0xFFFF_FFFF)],
            Keys::IdBytes => [(0, 0xFF), (0, 0x100), (0, 0xFF_0001), (0, 0x100_0000)],
            Keys::YBytes => [(0xFF, 1), (0x100, 1), (0xFF_0001, 1), (0x100_0000, 1)],
        }
    }
}

/// The key of a rank in a long list: three ids for each y, across the sign bits of both.
pub fn long_key(rank: usize) -> Key {
    (rank as i32 / 3 - 5, 0x7FFF_FFFF + rank as u32 % 3)
}

/// The order that records of these ranks must come to: their places in the list, the lowest rank first, equal ranks as they came in.
pub fn order(ranks: &[usize]) -> Vec<usize> {
    let most = ranks.iter().max().map_or(0, |most| most + 1);
    (0..most).flat_map(|rank| (0..ranks.len()).filter(move |i| ranks[*i] == rank)).collect()
}

/// Every list of so many ranks below `most`.
pub fn every_list(length: usize, most: usize) -> Vec<Vec<usize>> {
    (0..most.pow(length as u32)).map(|number| (0..length).map(|i| number / most.pow(i as u32) % most).collect()).collect()
}

/// How a long list is arranged.
#[derive(Clone, Copy, Debug, PartialEq, Eq, PartialOrd, Ord)]
pub enum Arranged {
    InOrder,
    Reversed,
    /// All of one rank.
    Equal,
    /// Two ranks in turn.
    InTurn,
    /// In order but for the last, which must come first.
    LastFirst,
    /// In order but for the first, which must come last.
    FirstLast,
    /// Each two neighbours changed.
    Swapped,
    /// The second half before the first.
    Halves,
    /// Up and down again.
    UpAndDown,
    /// Each rank twice, all of them reversed.
    Twins,
    /// By chance.
    Shuffled(usize),
    /// By chance, many of one rank.
    Few(usize),
}

pub fn arrangements() -> Vec<Arranged> {
    use Arranged::*;
    let mut all = vec![InOrder, Reversed, Equal, InTurn, LastFirst, FirstLast, Swapped, Halves, UpAndDown, Twins];
    all.extend((0..6).flat_map(|i| [Shuffled(i), Few(i)]));
    all
}

impl Arranged {
    /// The ranks of a list of so many records.
    pub fn ranks(self, r: &mut Rng, count: usize) -> Vec<usize> {
        let place = |i: usize| match self {
            Arranged::InOrder | Arranged::Shuffled(_) => i,
            Arranged::Reversed => count - 1 - i,
            Arranged::Equal => 0,
            Arranged::InTurn => 1 - i % 2,
            Arranged::LastFirst => (i + 1) % count,
            Arranged::FirstLast => (i + count - 1) % count,
            Arranged::Swapped => i ^ 1,
            Arranged::Halves => (i + count / 2) % count,
            Arranged::UpAndDown => (2 * i).min(2 * (count - i) - 1),
            Arranged::Twins => (count - 1 - i) / 2,
            Arranged::Few(_) => i % 4,
        };
        let mut ranks: Vec<usize> = (0..count).map(place).collect();
        if matches!(self, Arranged::Shuffled(_) | Arranged::Few(_)) {
            r.shuffle(&mut ranks);
        }
        ranks
    }
}

#[cfg(test)]
mod tests {
    use super::*;

    #[test]
    fn keys_rise() {
        for keys in KEYS {
            assert!(keys.keys().windows(2).all(|two| two[0] < two[1]), "{keys:?}");
        }
        assert!((1..64).all(|rank| long_key(rank - 1) < long_key(rank)));
    }

    #[test]
    fn orders() {
        assert_eq!(order(&[2, 0, 1, 0]), [1, 3, 2, 0]);
        assert_eq!((order(&[]), order(&[0, 0, 0])), (vec![], vec![0, 1, 2]));
        let mut lists = every_list(4, 4);
        lists.dedup();
        assert_eq!((lists.len(), every_list(3, 4).len()), (256, 64));
        let (r, count) = (&mut Rng::new(1), 6);
        assert_eq!(order(&Arranged::Reversed.ranks(r, count)), [5, 4, 3, 2, 1, 0]);
        assert_eq!(order(&Arranged::UpAndDown.ranks(r, count)), [0, 5, 1, 4, 2, 3]);
        assert_eq!(order(&Arranged::LastFirst.ranks(r, count)), [5, 0, 1, 2, 3, 4]);
    }
}
