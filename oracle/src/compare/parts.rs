//! Three parts of a whole for the comparison: such as make it up, such as are one unit off, and such as only make it up if their
//! sum wraps round at 2^64.
use super::tables::share;
use crate::random::Random;

/// Mostly parts that make up the whole.
pub fn any(random: &mut Random, whole: u64) -> [u64; 3] {
    match random.below(16) {
        0 => one_off(random, whole),
        1 => wrapped(random, whole),
        _ => made_up(random, whole),
    }
}

/// Parts that make up the whole, some of them often 0.
pub fn made_up(random: &mut Random, whole: u64) -> [u64; 3] {
    let mut parts = [0; 3];
    share(random, whole, &mut parts);
    parts
}

/// The same with one of them one more or one less.
pub fn one_off(random: &mut Random, whole: u64) -> [u64; 3] {
    let mut parts = made_up(random, whole);
    let part = &mut parts[random.below(3) as usize];
    *part = part.wrapping_add(random.pick(&[1, u64::MAX]));
    parts
}

/// Parts that make up the whole only modulo 2^64: together they are 2^64 above it, or twice that.
pub fn wrapped(random: &mut Random, whole: u64) -> [u64; 3] {
    let mut parts = match random.below(4) {
        0 if whole <= u64::MAX - 2 => [u64::MAX, u64::MAX, whole + 2],
        1 | 2 if whole >= 1 << 63 => none_above(random, whole),
        _ if whole == u64::MAX => none_above(random, whole),
        _ => one_above(random, whole),
    };
    parts.rotate_right(random.below(3) as usize);
    parts
}

/// Three parts 2^64 above a whole of at least 2^63, none of them larger than the whole. Thrice the whole is 2 x whole - 2^64 more
/// than that, and so much is taken off.
fn none_above(random: &mut Random, whole: u64) -> [u64; 3] {
    let too_large = whole.wrapping_mul(2);
    made_up(random, too_large).map(|taken| whole - taken)
}

/// Three parts 2^64 above the whole, the first of them larger than the whole, which is not the largest number.
fn one_above(random: &mut Random, whole: u64) -> [u64; 3] {
    let anything = random.between(whole / 2, u64::MAX - 1);
    let first = random.pick(&[u64::MAX, 1 << 63, anything]).max(whole.saturating_add(1));
    // 2^64 - first is what the first lacks of a turn.
    let others = whole + first.wrapping_neg();
    let second = random.pick(&[0, others, others / 2]);
    [first, second, others - second]
}

#[cfg(test)]
mod tests {
    use super::*;

    const WHOLES: [u64; 10] = [
        0,
        1,
        12_000_000,
        (1 << 63) - 1,
        1 << 63,
        (1 << 63) + 1,
        15_000_000_000_000_000_000,
        15_360_000_000_000_000_001,
        u64::MAX - 1,
        u64::MAX,
    ];

    fn sum(parts: [u64; 3]) -> u128 {
        parts.map(u128::from).iter().sum()
    }

    #[test]
    fn each_sort_has_its_sum() {
        let random = &mut Random::new(5);
        for whole in WHOLES.into_iter().flat_map(|whole| [whole; 200]) {
            let turns = sum(wrapped(random, whole)) - u128::from(whole);
            assert!(turns == 1 << 64 || turns == 2 << 64, "{whole}: {turns} above");
            assert_eq!(sum(made_up(random, whole)), u128::from(whole));
            assert_ne!(sum(one_off(random, whole)), u128::from(whole));
        }
    }

    #[test]
    fn parts_below_the_whole_wrap_too() {
        let random = &mut Random::new(5);
        for whole in WHOLES.into_iter().filter(|&whole| whole >= 1 << 63) {
            let parts = none_above(random, whole);
            assert!(parts.iter().all(|&part| part <= whole), "{whole}: {parts:?}");
            assert_eq!(sum(parts), u128::from(whole) + (1 << 64), "{whole}: {parts:?}");
        }
    }
}
