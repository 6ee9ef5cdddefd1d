//! Changes of a copy's text. Read by the build.rs of the variants that have some.

use crate::copy::Source;

/// Some text of a file, and what stands there instead.
pub struct Change {
    pub file: &'static str,
    pub old: &'static str,
    pub new: &'static str,
}

/// Each change stands where its old text stood: once, or the build stops.
pub fn change(sources: &mut [Source], changes: &[Change]) {
    for change in changes {
        let named = |source: &&mut Source| source.name == change.file;
        let source = sources.iter_mut().find(named).expect(change.file);
        let times = source.text.matches(change.old).count();
        assert_eq!(times, 1, "'{}' stands {times} times", change.old);
        source.text = source.text.replace(change.old, change.new);
    }
}
