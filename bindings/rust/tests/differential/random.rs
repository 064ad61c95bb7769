//! Random numbers that can be had again.

const SEED: u64 = 0x9E3779B97F4A7C15;

/// A splitmix generator: a counter, mixed. It prints its seed when the test that owns it fails.
pub struct Random {
    seed: u64,
    state: u64,
}

/// One number for each number.
fn mixed(x: u64) -> u64 {
    let x = (x ^ x >> 30).wrapping_mul(0xBF58476D1CE4E5B9);
    let x = (x ^ x >> 27).wrapping_mul(0x94D049BB133111EB);
    x ^ x >> 31
}

/// The seed that the text of RELAY_SEED means; none and an empty one mean the fixed seed.
fn seed_of(text: Option<&str>) -> Result<u64, String> {
    match text {
        None | Some("") => Ok(SEED),
        Some(text) => text.parse().map_err(|_| format!("RELAY_SEED is a decimal number below 2^64, not {text:?}")),
    }
}

impl Random {
    /// The generator of a test, from RELAY_SEED or the fixed seed.
    pub fn of(test: &str) -> Random {
        let given = std::env::var_os("RELAY_SEED").map(|text| text.to_string_lossy().into_owned());
        match seed_of(given.as_deref()) {
            Ok(seed) => Random::seeded(seed, test),
            Err(message) => panic!("{message}"),
        }
    }

    /// Another state for each seed, and the names of the tests mixed in.
    fn seeded(seed: u64, test: &str) -> Random {
        let state = test.bytes().fold(mixed(seed), |state, b| mixed(state ^ u64::from(b)));
        Random { seed, state }
    }

    pub fn next(&mut self) -> u64 {
        self.state = self.state.wrapping_add(SEED);
        mixed(self.state)
    }

    pub fn below(&mut self, bound: usize) -> usize {
        ((self.next() >> 11) % bound as u64) as usize
    }

    pub fn one_in(&mut self, n: usize) -> bool {
        self.below(n) == 0
    }

    /// A word of at most 32 places.
    pub fn word(&mut self, places: u32) -> u32 {
        (self.next() >> 20) as u32 & ((1u64 << places) - 1) as u32
    }

    /// A word of at most 32 places and this weight.
    pub fn pattern(&mut self, places: u32, weight: u32) -> u32 {
        let mut e = 0u32;
        while e.count_ones() < weight {
            e |= 1 << self.below(places as usize);
        }
        e
    }

    /// A word with a one at place `places` or beyond, of 32.
    pub fn outside(&mut self, places: u32) -> u32 {
        1 << (places + self.below(32 - places as usize) as u32)
    }
}

impl Drop for Random {
    fn drop(&mut self) {
        if std::thread::panicking() {
            eprintln!("to see this again: RELAY_SEED={}", self.seed);
        }
    }
}

#[test]
fn every_seed_gives_another_run() {
    let first = |seed| Random::seeded(seed, "test").next();
    let starts: std::collections::BTreeSet<u64> = (0..1000).chain(u64::MAX - 1000..=u64::MAX).map(first).collect();
    assert_eq!(starts.len(), 2001);
    assert_ne!(Random::seeded(7, "one").next(), Random::seeded(7, "other").next());
}

#[test]
fn seeds() {
    assert_eq!([seed_of(None), seed_of(Some(""))], [Ok(SEED), Ok(SEED)]);
    assert_eq!([seed_of(Some("0")), seed_of(Some("18446744073709551615"))], [Ok(0), Ok(u64::MAX)]);
    for text in ["x", "-1", "1.5", " 7", "18446744073709551616"] {
        assert!(seed_of(Some(text)).unwrap_err().contains(text), "{text}");
    }
}
