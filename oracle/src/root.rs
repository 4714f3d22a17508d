//! The `hypot` of document 01: the float nearest to the exact root.

/// The same as `exact_hypot`, by a root in binary64 wherever that is no close call.
#[allow(dead_code)]
pub fn quick_hypot(x: f32, y: f32) -> f32 {
    let (a, b) = (x as f64, y as f64);
    let root = (a * a + b * b).sqrt();
    // Its error is below two of its last places, so it rounds as the exact root does unless it lies so near a middle
    // of two floats. Below the normal floats and past all of them the places are others.
    let beside_middle = (root.to_bits() % (1 << 29)).abs_diff(1 << 28);
    if beside_middle > 2 && root >= f32::MIN_POSITIVE as f64 && root < f32::MAX as f64 {
        root as f32
    } else {
        exact_hypot(x, y)
    }
}

/// The float nearest to the root of x * x + y * y, ties to even, decided by whole squares.
pub fn exact_hypot(x: f32, y: f32) -> f32 {
    if x.is_infinite() || y.is_infinite() {
        return f32::INFINITY;
    }
    if x.is_nan() || y.is_nan() {
        return f32::NAN;
    }
    let (long, short) = if x.abs() < y.abs() { (y.abs(), x.abs()) } else { (x.abs(), y.abs()) };
    let (p, j) = digits_of(long);
    let (q, k) = digits_of(short);
    // A leg that is 20 binades shorter moves the root by far less than half a place.
    if j - k > 20 {
        return long;
    }
    root((p * p << (2 * (j - k))) + q * q, k)
}

/// The whole number q < 2^24 and the exponent k for which x is q * 2^k, in units of 2^-149.
fn digits_of(x: f32) -> (u128, u32) {
    let exponent = x.to_bits() >> 23;
    let fraction = (x.to_bits() & 0x7fffff) as u128;
    if exponent == 0 { (fraction, 0) } else { (fraction | 1 << 23, exponent - 1) }
}

/// The float nearest to the square root of a whole number, in units of 2^(k - 149).
fn root(square: u128, k: u32) -> f32 {
    let below = isqrt(square);
    let dropped = (128 - below.leading_zeros()).saturating_sub(24);
    let digits = below >> dropped;
    let twice_middle = (2 * digits + 1) << dropped;
    let middle = twice_middle * twice_middle;
    let up = 4 * square > middle || 4 * square == middle && digits % 2 == 1;
    // The digits of a normal number have their top digit, which adds one to the exponent's field.
    let pattern = ((k + dropped) << 23) + digits as u32 + up as u32;
    f32::from_bits(pattern.min(f32::INFINITY.to_bits()))
}

/// The largest whole number whose square is not above n, for n below 2^100.
pub fn isqrt(n: u128) -> u128 {
    let mut r = (n as f64).sqrt() as u128;
    while r * r > n {
        r -= 1;
    }
    while (r + 1) * (r + 1) <= n {
        r += 1;
    }
    r
}
