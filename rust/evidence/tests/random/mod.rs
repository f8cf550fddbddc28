//! What the tests on random cases share: how many there are, which ones, and how often each effect has to come up.

use indraveck_evidence::{tested, Model, Pair};
use proptest::strategy::Strategy;
use proptest::test_runner::{Config, RngAlgorithm, TestCaseError, TestRng, TestRunner};
use std::time::Instant;

/// Cases of one kind.
pub struct Cases {
    /// Their name, which in capital letters is that of the variable that says how many are run.
    pub name: &'static str,
    /// How many are run if nobody says.
    pub count: u32,
    /// How often each effect comes up at least in that many. A test that stays among refusals would agree on nothing.
    pub expected: &'static [(&'static str, u64)],
    /// What their seed is filled with; SEED says which ones of them.
    pub seed: u8,
}

fn number(name: &str, default: u32) -> u32 {
    match std::env::var(name) {
        Ok(words) => words.parse().expect("a whole number"),
        Err(_) => default,
    }
}

impl Cases {
    /// How many are run.
    pub fn asked(&self) -> u32 {
        number(&self.name.to_uppercase(), self.count)
    }

    /// So many of them, by the library and the model; those of another part are others.
    pub fn compare<S: Strategy>(
        &self,
        part: u8,
        count: u32,
        cases: &S,
        play: impl Fn(&Pair, &S::Value) -> Result<(), String>,
    ) {
        assert!(count > 0, "agreement says nothing where nobody was asked");
        let mut seed = [self.seed; 32];
        seed[..4].copy_from_slice(&number("SEED", 0).to_be_bytes());
        seed[4] ^= part;
        let config = Config {
            cases: count,
            max_shrink_iters: 20_000,
            failure_persistence: None,
            ..Config::default()
        };
        let rng = TestRng::from_seed(RngAlgorithm::ChaCha, &seed);
        let mut runner = TestRunner::new_with_rng(config, rng);
        let tested = tested();
        let pair = Pair::new(&*tested, &Model(None));
        let start = Instant::now();
        let outcome = runner.run(cases, |case| {
            play(&pair, &case).map_err(TestCaseError::fail)
        });
        if let Err(failure) = outcome {
            panic!("{}", failure);
        }
        let effects = pair.effects.borrow();
        println!(
            "{} {} by {} beside the model in {:.1} s:\n{}",
            count,
            self.name,
            tested.name(),
            start.elapsed().as_secs_f64(),
            effects
        );
        let expected: Vec<(&str, u64)> = self
            .expected
            .iter()
            .map(|(effect, least)| (*effect, least * u64::from(count) / u64::from(self.count)))
            .collect();
        let missing = effects.missing(&expected);
        assert!(missing.is_empty(), "{}", missing.join("\n"));
    }
}
