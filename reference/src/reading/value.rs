//! The value of a price (document 01, "Value of a price"; 001, 2.1.3).

/// "An exact half goes up."
fn round_half_up(numerator: u64, denominator: u64) -> u64 {
    (2 * numerator + denominator) / (2 * denominator)
}

/// "Factor K = 100,000·W/R rounded to a whole number": 001's
/// `Round(W/R; 5)`, counted in hundred-thousandths. R is not 0.
pub fn factor(w: u32, r: u32) -> u64 {
    round_half_up(100_000 * u64::from(w), u64::from(r))
}

/// "Value V(P) = P·K/100,000 rounded to whole kopecks": 001's
/// `Round(P*Round(W/R; 5); 2)`, counted in kopecks.
pub fn value(price: u32, factor: u64) -> i64 {
    let kopecks = round_half_up(u64::from(price) * factor, 100_000);
    i64::try_from(kopecks).expect("a price and a factor within their limits")
}
