//! Limbs worked out by hand (document 01, "Actors, points, limbs"): which are wrong, and what draws.

use crate::costume::limb_draws;

/// 16 limbs: limb 9 is active and has picture 66, the others are idle with bytes that would be wrong in an active limb.
fn limbs(length: u8, start: u32, place: u32) -> Vec<u8> {
    let idle = [0, 0, 0, 1, 0x11, 200, 0, 0, 9, 0, 0, 0, 1, 0, 0, 0];
    let active = [[1, 0, 0, 1].as_slice(), &[0x66, length, 0xEE, 0xDD], &start.to_le_bytes(), &place.to_le_bytes()].concat();
    (0..16).flat_map(|i| if i == 9 { active.clone() } else { idle.to_vec() }).collect()
}

/// Length, start and place. The last three windows end at 2^32 or past it.
#[test]
fn right_limbs() {
    let last = u32::MAX;
    let right = [(1, 0, 0), (128, 5, 132), (1, 70_000, 70_000), (1, last, last), (128, last, last), (16, last - 7, last)];
    for (length, start, place) in right {
        let limbs = limbs(length, start, place);
        assert_eq!(limb_draws(&limbs, 9), Ok(Some(0x66)), "{length} from {start}, at {place}");
        assert_eq!(limb_draws(&limbs, 8), Ok(None), "an idle limb draws nothing, and its bytes aren't judged");
    }
}

/// The last place is what start + length and place − start would let in if they wrapped.
#[test]
fn wrong_limbs() {
    let wrong = [(0, 5, 5), (129, 5, 5), (255, 5, 5), (2, 5, 4), (2, 5, 7), (2, 5, 5 + 65_536), (2, 5, u32::MAX), (16, u32::MAX - 7, 3)];
    for (length, start, place) in wrong {
        let limbs = limbs(length, start, place);
        for limb in 0..16 {
            assert_eq!(limb_draws(&limbs, limb), Err(15), "{length} from {start}, at {place}: limb {limb}");
        }
    }
}

#[test]
fn order_of_4_and_15() {
    let (right, wrong) = (limbs(1, 0, 0), limbs(0, 0, 0));
    assert_eq!((limb_draws(&right, 16), limb_draws(&right, u32::MAX)), (Err(15), Err(15)));
    assert_eq!((limb_draws(&right[..255], 16), limb_draws(&wrong[..255], 0), limb_draws(&[], 0)), (Err(4), Err(4), Err(4)));
    assert_eq!(limb_draws(&[right, wrong].concat(), 9), Ok(Some(0x66)), "bytes behind the 256 aren't judged");
}
