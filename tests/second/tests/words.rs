//! Ten million words of a fixed seed give draws in proportion: Pearson's test over entries of known weights, and as many
//! words turned away as there should be.

use second::generate::Random;
use second::ran::{bound, draw};

const WORDS: usize = 10_000_000;
const SEED: u64 = 32;
/// The total above which two multiples alone fit into 2^64: nearly a third of all words is turned away.
const THIRD: u64 = 6_148_914_691_236_517_206;
/// Two fifths of 2^64: a fifth is.
const FIFTH: u64 = 7_378_697_629_483_820_646;
/// The largest total.
const LARGEST: u64 = 9_000_000_000_000_000_000;

/// So many entries whose weights grow one by one, as near as the total lets them.
fn weights(total: u64, entries: u64) -> Vec<u64> {
    let parts = u128::from(entries * (entries + 1) / 2);
    let sum = |entry: u64| (u128::from(total) * u128::from(entry * (entry + 1) / 2) / parts) as u64;
    (0..entries).map(|entry| sum(entry + 1) - sum(entry)).collect()
}

/// Pearson's statistic of the draws that a rule makes of the words, and how many words it turns away.
fn tried(weights: &[u64], rule: fn(u64, u64) -> Option<u64>) -> (f64, usize) {
    let sums: Vec<u64> =
        weights.iter().scan(0, |sum, weight| Some(std::mem::replace(sum, *sum + weight) + weight)).collect();
    let total = *sums.last().expect("an entry");
    let mut random = Random::new(SEED);
    let mut met = vec![0u32; weights.len()];
    let mut turned = 0;
    for _ in 0..WORDS {
        match rule(random.number(), total) {
            Some(draw) => met[sums.partition_point(|sum| *sum <= draw)] += 1,
            None => turned += 1,
        }
    }
    let draws = (WORDS - turned) as f64;
    let part = |(weight, met): (&u64, &u32)| {
        let expected = draws * *weight as f64 / total as f64;
        (f64::from(*met) - expected).powi(2) / expected
    };
    (weights.iter().zip(&met).map(part).sum(), turned)
}

/// Of k entries the statistic has mean k - 1 and a variance of twice that. Six deviations above the mean are passed less
/// than once in 90,000 seeds for the fewest entries here (24), and less often for more.
fn most(entries: usize) -> f64 {
    let freedom = (entries - 1) as f64;
    freedom + 6.0 * (2.0 * freedom).sqrt()
}

#[test]
fn ten_million_words_give_draws_in_proportion() {
    let totals = [(325_000_000, 24), (1 << 62, 100), (THIRD, 100), (FIFTH, 100), (LARGEST, 1_000), (1_000_003, 24)];
    for (total, entries) in totals {
        let (statistic, turned) = tried(&weights(total, entries), draw);
        // Each word by itself is turned away with this chance.
        let chance = ((1u128 << 64) - bound(total)) as f64 / 2f64.powi(64);
        let (expected, deviation) = (WORDS as f64 * chance, (WORDS as f64 * chance * (1.0 - chance)).sqrt());
        println!("total {total}, {entries} entries: {statistic:.1}, at most {:.1}; {turned} turned away, expected {expected:.1}", most(entries as usize));
        assert!(statistic <= most(entries as usize), "total {total}");
        // Five deviations, and one word where next to none is turned away.
        assert!((turned as f64 - expected).abs() <= 5.0 * deviation + 1.0, "total {total}");
    }
}

/// The rest alone, no word turned away, isn't even: the lowest draws come up once more than the others.
#[test]
fn the_rest_alone_is_told_apart() {
    for total in [FIFTH, LARGEST] {
        let (statistic, _) = tried(&weights(total, 100), |word, total| Some(word % total));
        println!("total {total}: {statistic:.1}");
        assert!(statistic > 10.0 * most(100), "total {total}");
    }
}
