//! Distances between bursts.

/// The smallest distance from the end of one burst to the start of the next, in
/// the order of their starts; below 0 where two overlap. None for fewer than two.
pub fn least(starts: &mut [u64], length: u64) -> Option<i64> {
    starts.sort_unstable();
    let between = starts.windows(2).map(|pair| pair[1] - pair[0]);
    between.min().map(|bits| bits as i64 - length as i64)
}

#[cfg(test)]
mod tests {
    use super::*;

    #[test]
    fn distances() {
        assert_eq!(least(&mut [], 444), None);
        assert_eq!(least(&mut [7], 444), None);
        assert_eq!(least(&mut [448, 0], 444), Some(4));
        assert_eq!(least(&mut [0, 10_000, 9_000, 9_443], 443), Some(0));
        assert_eq!(least(&mut [5, 5, 1_000], 440), Some(-440));
    }
}
