//! Every deliberate fault is noticed by the same comparison: agreement of the library with the model is not for want of looking.

use indraveck_evidence::systematic::{self, Case};
use indraveck_evidence::{exchanges, histories, recordings, Model, Pair};
use indraveck_model::Fault;
use proptest::strategy::{Strategy, ValueTree};
use proptest::test_runner::{Config, RngAlgorithm, TestRng, TestRunner};

/// How many random histories, recordings or exchanges a fault may hide in, before only the systematic ones are left to notice it.
const MOST: u32 = 3_000;

/// The number of the history, recording or exchange that noticed, with the difference.
fn in_random<S: Strategy>(
    fault: Fault,
    strategy: S,
    play: fn(&Pair, &S::Value) -> Result<(), String>,
) -> Option<(u32, String)> {
    let (faulty, right) = (Model(Some(fault)), Model(None));
    let pair = Pair::new(&faulty, &right);
    let rng = TestRng::from_seed(RngAlgorithm::ChaCha, &[0xA5; 32]);
    let mut runner = TestRunner::new_with_rng(Config::default(), rng);
    (1..=MOST).find_map(|number| {
        let tree = strategy.new_tree(&mut runner).expect("nothing is filtered");
        let difference = play(&pair, &tree.current()).err()?;
        Some((number, difference))
    })
}

/// The first systematic case that noticed.
fn in_cases(fault: Fault, cases: &'static [Case]) -> Option<&'static str> {
    let (faulty, right) = (Model(Some(fault)), Model(None));
    cases
        .iter()
        .find(|case| (case.run)(&Pair::new(&faulty, &right)).is_err())
        .map(|case| case.name)
}

/// Two tests share the faults of the device, so that they run side by side.
#[test]
fn half_of_the_faults_are_noticed() {
    notice(Fault::OF_DEVICE.iter().step_by(2), in_device);
}

#[test]
fn and_so_is_the_other_half() {
    notice(Fault::OF_DEVICE.iter().skip(1).step_by(2), in_device);
}

#[test]
fn and_so_are_those_of_recordings() {
    notice(Fault::OF_RECORDINGS.iter(), in_recordings);
}

#[test]
fn and_so_are_those_of_the_hosts_end() {
    let faults = Fault::OF_HOST.iter();
    notice(faults.filter(|fault| !PLANS.contains(fault)), in_exchanges);
}

/// Faults of plans show in the model's own tests: no function for other languages plans.
const PLANS: [Fault; 14] = [
    Fault::PartsOf1025,
    Fault::UnitsCut,
    Fault::OneUnitAPart,
    Fault::EmptyPartPlanned,
    Fault::LastPartFull,
    Fault::WriteNotAskedFor,
    Fault::LessDataPlanned,
    Fault::Unit1025Planned,
    Fault::Unit1024Refused,
    Fault::UnitBeforeRange,
    Fault::EndBeforeStart,
    Fault::AmountBeforeAlignment,
    Fault::PlanAlignsEadItself,
    Fault::PlannedEndWraps,
];

#[test]
fn no_fault_is_left_out() {
    let looked_for = [Fault::OF_DEVICE, Fault::OF_RECORDINGS, Fault::OF_HOST].concat();
    assert_eq!(looked_for, Fault::ALL);
    assert!(Fault::OF_DEVICE.len() >= 37 && Fault::OF_RECORDINGS.len() >= 33);
    assert!(Fault::OF_HOST.len() >= 50 + PLANS.len());
}

/// Where a fault was noticed: at random, and in which case.
type Noticed = (Option<(u32, String)>, Option<&'static str>);

fn in_device(fault: Fault) -> Noticed {
    let random = in_random(fault, histories::histories(), histories::play);
    (random, in_cases(fault, systematic::CASES))
}

fn in_recordings(fault: Fault) -> Noticed {
    let random = in_random(fault, recordings::recordings(), recordings::play);
    (random, in_cases(fault, recordings::CASES))
}

fn in_exchanges(fault: Fault) -> Noticed {
    let random = in_random(fault, exchanges::exchanges(), exchanges::play);
    (random, in_cases(fault, exchanges::CASES))
}

fn notice(faults: impl Iterator<Item = &'static Fault>, look: fn(Fault) -> Noticed) {
    let mut hidden = Vec::new();
    println!("fault: random ones until it was noticed; the first systematic case that did");
    for &fault in faults {
        let (random, case) = look(fault);
        let number = match &random {
            Some((number, _)) => number.to_string(),
            None => format!("not in {}", MOST),
        };
        println!("{:?}: {}; {}", fault, number, case.unwrap_or("none"));
        if let Some((_, difference)) = &random {
            println!("    {}", difference);
        }
        if random.is_none() && case.is_none() {
            hidden.push(fault);
        }
    }
    assert!(hidden.is_empty(), "nothing noticed {:?}", hidden);
}
