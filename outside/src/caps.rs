//! The exact cap of a clause, in whole numbers.

use crate::SPEED_TOP;
use crate::path::Clause;

/// A finite binary32 number is `significand` × 2^`exponent` × 2^−149 in size.
struct Size {
    significand: u32,
    exponent: u32,
}

const FRACTION_BITS: u32 = 23;
const FRACTION: u32 = (1 << FRACTION_BITS) - 1;
const EXPONENTS: u32 = 0xff;
const SIGN: u32 = 1 << 31;
/// Twice 149, less the 16 places of 65536.
const SQUARE_PLACES: u32 = 282;
const PLACES: u32 = 149;
/// A dividend of at least 1 that is raised by so many places has a quotient above the top.
const PLENTY: u32 = 64;

pub fn is_finite(bits: u32) -> bool {
    (bits >> FRACTION_BITS) & EXPONENTS != EXPONENTS
}

pub fn is_zero(bits: u32) -> bool {
    bits & !SIGN == 0
}

/// Finite and not below zero; minus zero is not below zero.
pub fn is_top_speed(bits: u32) -> bool {
    is_finite(bits) && (bits & SIGN == 0 || is_zero(bits))
}

fn size(bits: u32) -> Size {
    let field = (bits >> FRACTION_BITS) & EXPONENTS;
    let fraction = bits & FRACTION;
    match field {
        0 => Size { significand: fraction, exponent: 0 },
        _ => Size { significand: fraction | 1 << FRACTION_BITS, exponent: field - 1 },
    }
}

/// The greatest w up to the top with w × 2^282 ≤ s × s × 2^(2x).
fn straight(top: u32) -> u32 {
    let Size { significand, exponent } = size(top);
    let square = u64::from(significand) * u64::from(significand);
    let raised = 2 * exponent;
    let cap = if raised >= SQUARE_PLACES {
        // a normal number: its square is at least 2^46 already
        u64::MAX
    } else {
        square.checked_shr(SQUARE_PLACES - raised).unwrap_or(0)
    };
    cap.min(u64::from(SPEED_TOP)) as u32
}

/// The greatest w up to the top with s × 2^x × w ≤ a × 2^149; a curvature of zero adds no cap.
fn bend(curvature: u32, lateral: u32) -> u32 {
    if is_zero(curvature) {
        return SPEED_TOP;
    }
    let Size { significand, exponent } = size(curvature);
    let (significand, lateral) = (u128::from(significand), u128::from(lateral));
    let cap = if exponent >= PLACES {
        let places = exponent - PLACES;
        if places >= PLENTY { 0 } else { lateral / (significand << places) }
    } else {
        (lateral << (PLACES - exponent).min(PLENTY)) / significand
    };
    cap.min(u128::from(SPEED_TOP)) as u32
}

/// The cap of a clause that the reader accepts, under a lateral number.
pub fn cap(clause: Clause, lateral: u32) -> u32 {
    match clause {
        Clause::Free => SPEED_TOP,
        Clause::Straight { top } => straight(top),
        Clause::Bend { top, curvature } => straight(top).min(bend(curvature, lateral)),
        Clause::Fixed { square } => square,
    }
}

#[cfg(test)]
mod tests {
    use super::*;

    #[test]
    fn worked_values() {
        let speed = |v: f32| straight(v.to_bits());
        assert_eq!(speed(0.25), 4096);
        assert_eq!(straight(0x3DCC_CCCD), 655);
        assert_eq!(speed(181.0), 2_147_024_896);
        assert_eq!(speed(182.0), SPEED_TOP);
        assert_eq!(speed(0.0), 0);
        assert_eq!(speed(-0.0), 0);
        assert_eq!(speed(f32::MAX), SPEED_TOP);
        assert_eq!(straight(1), 0);
        let clause = Clause::Bend { top: 1f32.to_bits(), curvature: 3f32.to_bits() };
        assert_eq!(cap(clause, 131_072), 43_690);
        assert_eq!(bend(1, 0), 0);
        assert_eq!(bend(1, 1), SPEED_TOP);
        assert_eq!(bend(f32::MAX.to_bits(), SPEED_TOP), 0);
        assert_eq!(bend(SIGN, 0), SPEED_TOP);
    }

    /// The quotient against a product, near both.
    #[test]
    fn bends_by_their_inequality() {
        let mut bits: u32 = 12345;
        for _ in 0..200_000 {
            bits = bits.wrapping_mul(1_664_525).wrapping_add(1_013_904_223);
            let curvature = (bits % (1 << 30)) + (100 << FRACTION_BITS);
            let lateral = bits.rotate_left(7) >> 1;
            if !is_finite(curvature) {
                continue;
            }
            let k = f64::from(f32::from_bits(curvature & !SIGN));
            let w = bend(curvature, lateral);
            let near = f64::from(lateral) / k;
            let near = near.min(f64::from(SPEED_TOP));
            assert!((f64::from(w) - near).abs() <= 1.0, "{curvature:x} {lateral} {w} {near}");
        }
    }
}
