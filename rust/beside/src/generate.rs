//! For requests: all ways to combine numbers, and their neighbours.

/// The numbers of one request.
pub type Numbers = Vec<u32>;

/// All ways to take one number of each range, in order.
pub fn grid<const N: usize>(ranges: [std::ops::RangeInclusive<u32>; N]) -> Vec<Numbers> {
    let mut all = vec![Vec::new()];
    for range in ranges {
        let longer = |begun: &Numbers| -> Vec<Numbers> {
            let with = |number| begun.iter().copied().chain([number]).collect();
            range.clone().map(with).collect()
        };
        all = all.iter().flat_map(longer).collect();
    }
    all
}

/// A number and its neighbours, as far as they fit into 32 bits.
pub fn around(number: u64) -> Vec<u32> {
    let neighbours = number.saturating_sub(1)..=number + 1;
    neighbours.filter_map(|near| near.try_into().ok()).collect()
}

/// Every tail after every head.
pub fn after(heads: &[Numbers], tails: &[Numbers]) -> Vec<Numbers> {
    let with = |head: &Numbers| {
        let head = head.clone();
        tails.iter().map(move |tail| [&head[..], tail].concat())
    };
    heads.iter().flat_map(with).collect()
}

/// Every tail after the smallest, the largest and a usual frequency.
pub fn at_both_ends(tails: &[Numbers]) -> Vec<Numbers> {
    let ends = [0, 1, 1_333_333_320, u32::MAX - 1, u32::MAX];
    after(&ends.map(|end| vec![end]), tails)
}
