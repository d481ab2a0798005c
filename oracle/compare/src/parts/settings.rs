//! The settings: our program replay against the Rust's `validate` and the fields that the specification adds.

use cases::settings::SettingsCase;
use replay::settings;
use trials::Part;

pub struct SettingsPart;

impl Part for SettingsPart {
    const NAME: &'static str = "settings";
    const WHAT: &'static str = "the first bad field against the Rust's validate";
    const COUNT: u64 = 1_000_000;
    const BRIEF: u64 = 50_000;

    type Case = SettingsCase;

    fn ours(case: &SettingsCase) -> Option<u32> {
        let answers = replay::answers(&settings::calls(&case.0), 1);
        settings::field(&answers[0])
    }
}
