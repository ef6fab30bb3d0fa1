/// The greatest `d` with `d * d * count <= interval * interval`. By the integer square root of `std` it takes almost twice
/// the time.
pub fn gap(interval: u64, count: u32) -> u64 {
    let square = u128::from(interval) * u128::from(interval);
    let is_too_long = |d: u64| u128::from(d) * u128::from(d) * u128::from(count) > square;
    let mut d = (interval as f64 / f64::from(count).sqrt()) as u64;
    while is_too_long(d) {
        d -= 1;
    }
    while !is_too_long(d + 1) {
        d += 1;
    }
    d
}
