//! The rules that the wrapper names to a person are the ones by which the library decides.

#![cfg(feature = "proved")]

use indraveck::{Area, Device, Kind, Profile, Refusal, Rule};
use indraveck_evidence::profiles::{self, RULES};

/// What the wrapper's enum of kinds can say.
fn wrapped(profile: &indraveck_model::Profile) -> Option<Profile> {
    if profile.noa > 8 {
        return None;
    }
    let areas: Option<Vec<Area>> = profiles::used(profile).iter().map(area).collect();
    Some(Profile {
        areas: areas?,
        sci: profile.sci,
        rmb: profile.rmb,
        typ: profile.typ,
        bfv: profile.bfv,
        low: profile.low,
        high: profile.high,
    })
}

fn area(area: &indraveck_model::Area) -> Option<Area> {
    let kind = match area.koa {
        profiles::USER => Kind::User,
        profiles::DATA => Kind::Data,
        profiles::CONFIG => Kind::Config,
        _ => return None,
    };
    Some(Area {
        kind,
        sad: area.sad,
        ead: area.ead,
        eau: area.eau,
        wau: area.wau,
    })
}

/// Whether the library accepts a profile. No image has no bytes, and the profile is judged before the image's length.
fn library_accepts(profile: &Profile) -> bool {
    match Device::start(profile, Vec::new()) {
        Ok(_) => panic!("a device without flash was started"),
        Err(refused) => match refused.refusal {
            Refusal::UnacceptableProfile => false,
            Refusal::WrongImageLength => true,
            other => panic!("a start was refused with {}", other),
        },
    }
}

#[test]
fn named_rules_are_broken_exactly_where_the_library_refuses() {
    let mut refused = 0;
    let starts = [
        profiles::roomy(),
        profiles::bench(),
        profiles::small(),
        profiles::top(),
    ];
    for start in &starts {
        for first in RULES {
            for second in RULES {
                for choice in [0, 1, 2, 5, 7, 0x100, 0x103] {
                    let mut profile = start.clone();
                    profiles::break_rule(&mut profile, first, choice);
                    profiles::break_rule(&mut profile, second, choice + 1);
                    if let Some(profile) = wrapped(&profile) {
                        let named = profile.broken_rules();
                        assert_eq!(
                            named.is_empty(),
                            library_accepts(&profile),
                            "{:?} of {:?}",
                            named,
                            profile
                        );
                        refused += usize::from(!named.is_empty());
                    }
                }
            }
        }
        let unchanged = wrapped(start).expect("a profile of known kinds");
        assert_eq!(unchanged.broken_rules(), []);
        assert!(library_accepts(&unchanged));
    }
    assert!(refused > 1000, "only {} profiles were refused", refused);
}

#[test]
fn more_areas_than_fit_are_a_broken_rule() {
    let mut profile = wrapped(&profiles::roomy()).expect("a profile of known kinds");
    let last = profile.areas[7];
    profile.areas.push(Area {
        sad: last.ead + 1,
        ead: last.ead + 0x20,
        ..last
    });
    assert_eq!(profile.broken_rules(), [Rule::AreaCount { noa: 9 }]);
    assert!(!library_accepts(&profile));
}
