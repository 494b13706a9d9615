//! The random settings hold every good value of each choice, and bad ones.

use std::collections::BTreeSet;

use reference::memory::setting_is_bad;
use reference::random::{any_setting, good_setting, Rng};
use reference::Setting;

/// Reads one choice of a setting.
type Choice = fn(&Setting) -> u16;

/// The choices by name, with their good values.
const CHOICES: [(&str, Choice, &[u16]); 5] = [
    ("mode", |setting| u16::from(setting.mode), &[0, 1]),
    ("layout", |setting| u16::from(setting.layout), &[0, 1]),
    ("mac", |setting| u16::from(setting.mac), &[8, 12, 16]),
    ("profile", |setting| u16::from(setting.profile), &[0, 1]),
    ("width", |setting| setting.width, &[64, 128, 192, 256]),
];

/// The values that a choice takes in many settings.
fn values(choice: Choice, settings: &[Setting]) -> BTreeSet<u16> {
    settings.iter().map(choice).collect()
}

#[test]
fn good_settings_hold_all_good_values_and_no_other() {
    let mut rng = Rng::new(91);
    let settings: Vec<Setting> = (0..1_000).map(|_| good_setting(&mut rng)).collect();
    assert!(!settings.iter().any(setting_is_bad));
    for (name, choice, good) in CHOICES {
        let good: BTreeSet<u16> = good.iter().copied().collect();
        assert_eq!(values(choice, &settings), good, "{name}");
    }
}

#[test]
fn any_settings_hold_bad_values_too() {
    let mut rng = Rng::new(92);
    let settings: Vec<Setting> = (0..10_000).map(|_| any_setting(&mut rng)).collect();
    for (name, choice, good) in CHOICES {
        let bad = values(choice, &settings);
        assert!(bad.len() > good.len() + 2, "{name} {bad:?}");
    }
    assert!(settings.iter().any(|setting| setting.limit == 0));
}
