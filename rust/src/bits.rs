//! Sets of instruments as 64-bit words: bit k stands for instrument k.

/// The set holding `item` alone.
pub fn one(item: usize) -> u64 {
    1 << item
}

/// The set of the first `count` instruments.
pub fn first(count: usize) -> u64 {
    if count >= 64 {
        u64::MAX
    } else {
        (1 << count) - 1
    }
}

/// Whether `item` is in `set`.
pub fn has(set: u64, item: usize) -> bool {
    set >> item & 1 == 1
}

/// The number of instruments in `set`.
pub fn size(set: u64) -> u32 {
    set.count_ones()
}

/// The members of `set`, rising.
pub fn members(set: u64) -> impl Iterator<Item = usize> {
    let mut rest = set;
    std::iter::from_fn(move || {
        let item = rest.trailing_zeros() as usize;
        rest &= rest.wrapping_sub(1);
        (item < 64).then_some(item)
    })
}

/// All parts of `set`, from the empty one to `set` itself.
pub fn subsets(set: u64) -> impl Iterator<Item = u64> {
    let mut next = Some(0);
    std::iter::from_fn(move || {
        let part = next?;
        next = (part != set).then(|| part.wrapping_sub(set) & set);
        Some(part)
    })
}

#[cfg(test)]
mod tests {
    use super::*;

    #[test]
    fn subsets_are_all_different_and_complete() {
        let parts: Vec<u64> = subsets(0b1011).collect();
        assert_eq!(parts, [0, 0b1, 0b10, 0b11, 0b1000, 0b1001, 0b1010, 0b1011]);
        assert_eq!(subsets(0).count(), 1);
    }

    #[test]
    fn words_at_the_edge() {
        assert_eq!(first(64), u64::MAX);
        assert_eq!(first(0), 0);
        assert_eq!(members(one(63) | 1).collect::<Vec<_>>(), [0, 63]);
        assert_eq!(members(0).count(), 0);
    }
}
