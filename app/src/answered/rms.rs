//! The rms value of a sum of squares in percent of R, to be looked at. What begins or ends an event goes by the exact sum
//! (`level`) and never by these.
use super::level::reference;
use host::Settings;

/// As a float: good enough to draw, and to measure by.
pub fn percent(s: &Settings, sum: u64) -> f64 {
    100.0 * (sum as f64 / s.n as f64).sqrt() / s.r as f64
}

/// In hundredths of a percent, to the nearest, halves upward: in whole numbers, so that no half is missed. A value that is not on
/// a threshold may be rounded onto it.
pub fn hundredths(s: &Settings, sum: u64) -> u64 {
    // Halves of a hundredth, rounded down: 20,000 V / R, and V x V is S / N.
    let halves = (20_000 * 20_000 * u128::from(sum) / reference(s)).isqrt();
    halves.div_ceil(2) as u64
}

#[cfg(test)]
mod tests {
    use super::hundredths;
    use crate::answered::level::reference;
    use host::Settings;
    use oracle::random::Random;

    /// h is the nearest, halves upward, exactly if h - 1/2 is at most 10,000 V / R and that is below h + 1/2: squared, and
    /// without a root.
    fn is_nearest(s: &Settings, sum: u64, h: u64) -> bool {
        let (exact, h) = (400_000_000 * u128::from(sum), u128::from(h));
        let below = h == 0 || (2 * h - 1).pow(2) * reference(s) <= exact;
        below && exact < (2 * h + 1).pow(2) * reference(s)
    }

    #[test]
    fn hundredths_are_the_nearest() {
        let random = &mut Random::new(4);
        for _ in 0..20_000 {
            let (n, r) = (2 * random.between(4, 256), random.between(1_000, 50_000));
            let s = Settings { n, r, f: 50, sag: 90, interruption: 10, swell: 110, hysteresis: 2 };
            // Sums of every size, and beside each the half between two hundredths.
            let sum = random.below(n * 10_000_000_000 + 1) >> random.below(40);
            let half = (2 * u128::from(hundredths(&s, sum)) + 1).pow(2) * reference(&s) / 400_000_000;
            for sum in [sum, half as u64, half as u64 + 1] {
                assert!(is_nearest(&s, sum, hundredths(&s, sum)), "{s:?}: {sum}");
            }
        }
    }

    /// With N 16 and R 1,000 half-hundredths squared are 25 S. S = 1 makes 5 of them, 2.5 hundredths, and S = 9 makes 15: upward. 90
    /// percent is 12,960,000, and one unit of S below it is rounded onto it.
    #[test]
    fn hundredths_by_hand() {
        let s = Settings { n: 16, r: 1_000, f: 50, sag: 90, interruption: 10, swell: 110, hysteresis: 2 };
        for (sum, wanted) in [(0, 0), (1, 3), (4, 5), (8, 7), (9, 8), (16_000_000, 10_000)] {
            assert_eq!(hundredths(&s, sum), wanted, "{sum}");
        }
        assert_eq!([12_959_999, 12_960_000].map(|sum| hundredths(&s, sum)), [9_000; 2]);
    }
}
