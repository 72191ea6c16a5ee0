//! Allocators and memories against the rules said plainly.

use celimbuk_bench::random::Random;
use celimbuk_bench::twin::allocator::{Allocator, Cell};
use celimbuk_bench::twin::best_fit::BestFit;
use celimbuk_bench::twin::fault::{Denial, Fault, Layer};
use celimbuk_bench::twin::flat::Flat;
use celimbuk_bench::twin::memory::TaggedMemory;
use celimbuk_bench::twin::next_fit::NextFit;
use celimbuk_bench::twin::paged::Paged;
use celimbuk_bench::twin::quota::Quota;

/// A placement rule: from map, mark and n to base and next mark.
type Rule = fn(&[Cell], usize, usize) -> Option<(usize, usize)>;

fn all_free(map: &[Cell], base: usize, n: usize) -> bool {
    base + n <= map.len() && map[base..base + n].iter().all(|&cell| cell == Cell::Free)
}

fn best_fit(map: &[Cell], _: usize, n: usize) -> Option<(usize, usize)> {
    let begins = |base: usize| map[base] == Cell::Free && (base == 0 || map[base - 1] != Cell::Free);
    let stretch = |base: usize| map[base..].iter().take_while(|&&cell| cell == Cell::Free).count();
    let stretches = (0..map.len()).filter(|&base| begins(base)).map(|base| (stretch(base), base));
    let (_, base) = stretches.filter(|&(length, _)| length >= n).min()?;
    Some((base, 0))
}

fn next_fit(map: &[Cell], mark: usize, n: usize) -> Option<(usize, usize)> {
    let base = (mark..map.len()).chain(0..map.len()).find(|&base| all_free(map, base, n))?;
    Some((base, base + n))
}

/// Random allocations and releases, against a map that follows the rule.
fn follows_rule<A: Allocator>(seed: u64, mut allocator: A, rule: Rule) {
    let mut random = Random::new(seed);
    let mut map = vec![Cell::Free; allocator.granules()];
    let mut mark = 0;
    for _ in 0..5_000 {
        let taken = map.iter().filter(|&&cell| cell != Cell::Free).count();
        assert_eq!((allocator.taken(), allocator.mark()), (taken, mark));
        if random.one_in(2) {
            let n = if random.one_in(10) { random.below(map.len() + 2) } else { random.below(5) };
            let expected = match rule(&map, mark, n) {
                _ if n == 0 => Err(Denial::BadNum),
                _ if taken + n > allocator.allowance() => Err(Denial::Allowance),
                None => Err(Denial::NoRun),
                Some((base, next)) => {
                    map[base..base + n].fill(Cell::Rest);
                    map[base] = Cell::First;
                    mark = next;
                    Ok(base)
                }
            };
            assert_eq!(allocator.allocate(n), expected.map_err(|denial| denial.of(Layer::Allocator)));
        } else {
            let base = random.below(map.len() + 2);
            let whole = map.get(base) == Some(&Cell::First);
            let rests = map.iter().skip(base + 1).take_while(|&&cell| cell == Cell::Rest).count();
            let length = if whole { 1 + rests } else { 0 };
            assert_eq!(allocator.length_at(base), length);
            if whole {
                map[base..base + length].fill(Cell::Free);
                assert_eq!(allocator.release(base), Ok(length));
            } else {
                assert_eq!(allocator.release(base), Err(Denial::NotWhole.of(Layer::Allocator)));
            }
        }
        assert!((0..map.len()).all(|granule| allocator.cell(granule) == map[granule]));
    }
}

#[test]
fn allocators_follow_their_rules() {
    for (seed, granules) in (0..).zip([16, 32, 48, 112, 256]) {
        let (mut lengths, mut used, mut firsts) = (vec![9; granules], vec![9; granules / 8], vec![9; granules / 8]);
        follows_rule(seed, BestFit::new(&mut lengths, &mut used), best_fit);
        follows_rule(seed, Quota::new(BestFit::new(&mut lengths, &mut used), granules / 2), best_fit);
        follows_rule(seed, NextFit::new(&mut used, &mut firsts), next_fit);
        let quota = Quota::new(NextFit::new(&mut used, &mut firsts), 3 * granules / 4);
        follows_rule(seed, Quota::new(quota, granules), next_fit);
    }
}

/// Makes the same random change to any memory.
fn change<M: TaggedMemory>(random: &mut Random, memory: &mut M) -> Result<(), Fault> {
    let all = memory.granules();
    let granule = random.below(all + 2);
    match random.below(5) {
        0 => memory.store_byte(random.below(16 * all + 20), random.number() as u8),
        1 => memory.untag(granule),
        2 => memory.wipe(granule, random.below(4)),
        _ => {
            let base = random.below(16 * all) as u32;
            memory.store_capability(granule, base, base + random.below(20) as u32, random.below(34) as u32)
        }
    }
}

#[test]
fn paged_memory_is_flat_memory_with_exact_counts() {
    for (seed, granules) in (0..).zip([16, 32, 112]) {
        let (mut bytes, mut tags) = (vec![9; 16 * granules], vec![9; granules / 8]);
        let (mut bytes2, mut tags2, mut counts) =
            (vec![9; 16 * granules], vec![9; granules / 8], vec![9; granules / 16]);
        let mut flat = Flat::new(&mut bytes, &mut tags);
        let mut paged = Paged::new(&mut bytes2, &mut tags2, &mut counts);
        let (mut random, mut random2) = (Random::new(seed), Random::new(seed));
        for _ in 0..5_000 {
            assert_eq!(change(&mut random, &mut flat), change(&mut random2, &mut paged));
            for granule in 0..granules + 2 {
                assert_eq!(flat.load_granule(granule), paged.load_granule(granule));
                let page = granule / 16 * 16;
                let tagged = (page..page + 16).any(|other| flat.load_granule(other).is_ok_and(|found| found.tagged));
                assert_eq!(paged.may_hold(granule).ok(), (granule < granules).then_some(tagged));
                assert_eq!(flat.may_hold(granule).ok(), (granule < granules).then_some(true));
            }
        }
        assert!((0..16 * granules + 2).all(|address| flat.load_byte(address) == paged.load_byte(address)));
    }
}

#[test]
fn wrong_sizes_make_no_granules_and_touch_no_buffer() {
    for granules in [0, 8, 24, 1_040] {
        let mut bytes = vec![9; 16 * granules];
        let mut bits = vec![9; granules / 8];
        assert_eq!(Flat::check(&bytes, &bits), Err(Denial::Sizes.of(Layer::Memory)));
        assert_eq!(Flat::new(&mut bytes, &mut bits).granules(), 0);
        let mut more = vec![9; granules / 8];
        assert_eq!(NextFit::new(&mut bits, &mut more).granules(), 0);
        let mut lengths = vec![9; granules];
        assert_eq!(BestFit::check(&lengths, &bits), Err(Denial::Sizes.of(Layer::Allocator)));
        assert_eq!(BestFit::new(&mut lengths, &mut bits).granules(), 0);
        assert!(bytes.iter().chain(&bits).chain(&more).all(|&byte| byte == 9));
        assert!(lengths.iter().all(|&length| length == 9));
    }
    let (mut bytes, mut tags, mut counts) = ([9; 512], [9; 4], [9; 3]);
    let paged = Paged::new(&mut bytes, &mut tags, &mut counts);
    assert_eq!((paged.granules(), paged.may_hold(0)), (0, Err(Denial::Bounds.of(Layer::Memory))));
    assert!(bytes.iter().chain(&tags).chain(&counts).all(|&byte| byte == 9));
    assert_eq!(Flat::check(&[0; 16_384], &[0; 128]), Ok(1_024));
}
