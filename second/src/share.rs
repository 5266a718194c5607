//! The share that a count has in all combinations, as the bits of a double.

/// Digits of a double after its first one, and the exponent of 1.0.
const DIGITS: u32 = 52;
const EXPONENT_OF_ONE: u64 = 1_023;

/// The bits of count / 2^n, written by hand: a double holds 53 binary digits
/// of a number, and no count up to 2^52 has more, so that nothing is rounded.
pub fn share_bits(count: u64, n: usize) -> u64 {
    assert!(count <= 1 << n, "a count is one of 2^n combinations");
    let Some(highest) = count.checked_ilog2() else {
        return 0;
    };
    let after_the_first = count - (1 << highest);
    let exponent = EXPONENT_OF_ONE + u64::from(highest) - n as u64;
    exponent << DIGITS | after_the_first << (DIGITS - highest)
}

#[cfg(test)]
mod tests {
    use super::share_bits;
    use crate::layout::MOST_COUNTED;
    use crate::random::Random;

    #[test]
    fn written_out() {
        assert_eq!(share_bits(0, 1), 0x0000_0000_0000_0000);
        assert_eq!(share_bits(1, 2), 0x3FD0_0000_0000_0000);
        assert_eq!(share_bits(3, 2), 0x3FE8_0000_0000_0000);
        assert_eq!(share_bits(4, 2), 0x3FF0_0000_0000_0000);
        assert_eq!(share_bits(1, 32), 0x3DF0_0000_0000_0000);
        assert_eq!(share_bits((1 << 32) - 1, 32), 0x3FEF_FFFF_FFE0_0000);
        assert_eq!(share_bits(1 << 32, 32), 0x3FF0_0000_0000_0000);
        assert_eq!(share_bits(1, 52), 0x3CB0_0000_0000_0000);
        assert_eq!(share_bits((1 << 52) - 1, 52), 0x3FEF_FFFF_FFFF_FFFE);
        assert_eq!(share_bits(1 << 52, 52), 0x3FF0_0000_0000_0000);
    }

    #[test]
    fn the_quotient() {
        let random = &mut Random::from_seed(0);
        for n in 1..=MOST_COUNTED as i32 {
            let all = 1_u64 << n;
            let ends = (0..all.min(2_000)).chain(all - all.min(2_000)..=all);
            let middle: Vec<u64> = (0..2_000)
                .map(|_| random.below(all as usize) as u64)
                .collect();
            for count in ends.chain(middle) {
                let quotient = count as f64 / 2_f64.powi(n);
                assert_eq!(
                    share_bits(count, n as usize),
                    quotient.to_bits(),
                    "{count} of 2^{n}"
                );
            }
        }
    }
}
