//! Which member of a group owns a shard: all that know the members find the same, and where one comes or goes only its own shards move.

/// Under leases each shard has a lease of its own, so that who runs it rests on the process of leases alone, and not on what agents know of the group; beyond
/// so many shards those of one remainder share one, so that what is asked of voters has a bound.
pub const LEASES: u32 = 64;

/// There are so many shards at most.
pub const MOST_SHARDS: u32 = 4096;

/// The member that owns a shard, by rendezvous hashing: the one of the greatest hash with it.
pub fn owner(shard: u32, members: &[u8]) -> Option<u8> {
    members.iter().copied().max_by_key(|member| (hash(u64::from(shard) << 8 | u64::from(*member)), *member))
}

/// A number whose bits depend on each bit of another one (splitmix64).
fn hash(of: u64) -> u64 {
    let mixed = of.wrapping_add(0x9e37_79b9_7f4a_7c15);
    let mixed = (mixed ^ (mixed >> 30)).wrapping_mul(0xbf58_476d_1ce4_e5b9);
    let mixed = (mixed ^ (mixed >> 27)).wrapping_mul(0x94d0_49bb_1331_11eb);
    mixed ^ (mixed >> 31)
}

#[cfg(test)]
mod tests {
    use super::*;

    #[test]
    fn the_hash_is_splitmix64() {
        // the first two numbers of the generator from 0, as its authors print them
        assert_eq!((hash(0), hash(0x9e37_79b9_7f4a_7c15)), (0xe220_a839_7b1d_cdaf, 0x6e78_9e6a_a1b9_65f4));
    }

    #[test]
    fn only_the_shards_of_who_comes_or_goes_move() {
        let count = |members: &[u8], member| (0..4096).filter(|shard| owner(*shard, members) == Some(member)).count();
        let three = [0, 1, 2];
        assert!(three.iter().all(|member| (1250..1480).contains(&count(&three, *member))), "a third each");
        for (before, behind, moves) in [(&[0, 1, 2][..], &[0, 1][..], 2), (&[0, 1, 2], &[0, 1, 2, 3], 3)] {
            for shard in 0..4096 {
                let owners = [owner(shard, before), owner(shard, behind)];
                assert!(owners[0] == owners[1] || owners.contains(&Some(moves)), "{shard}: {owners:?}");
            }
        }
        assert_eq!(owner(7, &[]), None);
    }
}
