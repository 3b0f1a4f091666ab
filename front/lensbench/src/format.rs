//! Numbers in decimal that read back to the same bits.

/// The shortest decimal that reads back to the same number, with an exponent only where there would be many zeros. `inf`, `-inf`, `nan` for the others.
///
/// ```
/// assert_eq!(lensbench::shortest(0.1 + 0.2), "0.30000000000000004");
/// assert_eq!(lensbench::shortest(1e-9), "1e-9");
/// ```
pub fn shortest(x: f64) -> String {
    if x.is_nan() {
        return "nan".to_string();
    }
    let size = x.abs();
    if x == 0.0 || x.is_infinite() || (1e-5..1e16).contains(&size) {
        return format!("{x}");
    }
    format!("{x:e}")
}

/// `1 slot`, `2 slots`.
pub(crate) fn counted(n: usize, one: &str, many: &str) -> String {
    format!("{n} {}", if n == 1 { one } else { many })
}
