//! The tests of usage flags.

use csl_render::UsageInfo;

/// The usage flags of a parent and of a child, and whether a group with both together prints.
type GroupRow = (UsageInfo, UsageInfo, bool);

const CALLED: UsageInfo = UsageInfo {
    has_vars: true,
    has_non_empty_vars: false,
    has_used_macros: false,
    has_non_empty_group: false,
};

const USED: UsageInfo = UsageInfo {
    has_vars: false,
    has_non_empty_vars: false,
    has_used_macros: true,
    has_non_empty_group: false,
};

const WITH_GROUP: UsageInfo = UsageInfo {
    has_vars: false,
    has_non_empty_vars: false,
    has_used_macros: false,
    has_non_empty_group: true,
};

static GROUPS: [GroupRow; 4] = [
    (CALLED, CALLED, false),
    (CALLED, USED, true),
    (WITH_GROUP, CALLED, true),
    // The group flag stays the parent's.
    (CALLED, WITH_GROUP, false),
];

#[test]
fn flags_join(rt: HostRuntime) {
    for (parent, child, wanted) in &GROUPS {
        let is_shown = parent.merge_child(*child).should_render_group();
        assert!(rt; is_shown == *wanted, "whether a group is shown");
    }
}
