//! ln, exp and powi as the paper writes them, every operation rounded once.
#![allow(clippy::approx_constant)]

/// For 0 and for normal numbers above 0, which are all that the tables ask for.
pub fn ln(x: f64) -> f64 {
    if x == 0.0 {
        return f64::NEG_INFINITY;
    }
    let bits = x.to_bits();
    let mut e = (bits >> 52) as f64 - 1023.0;
    let mut m = f64::from_bits(bits & 0x000f_ffff_ffff_ffff | 0x3ff0_0000_0000_0000);
    if m > 1.4142135623730951 {
        m /= 2.0;
        e += 1.0;
    }
    let z = (m - 1.0) / (m + 1.0);
    let q = z * z;
    let mut h = 1.0 / 21.0;
    for d in (1..=19).rev().step_by(2) {
        h = h * q + 1.0 / d as f64;
    }
    e * 0.6931471805599453 + (2.0 * z) * h
}

/// exp(-v) for 0 <= v < 30.
pub fn exp_neg(mut v: f64) -> f64 {
    let mut whole = 0;
    while v >= 1.0 {
        v -= 1.0;
        whole += 1;
    }
    let mut h = 1.0;
    for d in (1..=20).rev() {
        h = 1.0 - (v / d as f64) * h;
    }
    for _ in 0..whole {
        h *= 0.36787944117144233;
    }
    h
}

pub fn powi(base: f64, times: usize) -> f64 {
    (0..times).fold(1.0, |power, _| power * base)
}

#[cfg(test)]
mod tests {
    use super::*;

    #[test]
    fn near_the_library() {
        for i in 2..65536 {
            let x = i as f64;
            assert!((ln(x) - x.ln()).abs() <= 4e-16 * x.ln(), "ln {i}");
        }
        for i in 0..3000 {
            let v = i as f64 / 100.0;
            assert!((exp_neg(v) - (-v).exp()).abs() <= 4e-15 * (-v).exp(), "exp -{v}");
        }
        assert_eq!(ln(1.0), 0.0);
        assert_eq!(powi(1.5, 3), 3.375);
    }
}
