//! Contexts with a limit of what they may write.

use crate::assertions::{assert_of, assert_same};
use crate::csl_context_tests::setup::Setup;
use csl_context::RenderError;
use std::test::Fail;

/// The error of a call, if it failed.
type Answer = Option<RenderError>;

const MEMORY: Answer = Some(RenderError::Memory);

const FAILED: Answer = Some(RenderError::Failed);

/// A limit, what three calls in a row return under it, and the bytes that are left: a text of 2 bytes
/// takes 66, 3 bytes are for a text that is made first, and a text of 1 byte joins the last one.
static LIMITS: [(u64, [Answer; 3], u64); 7] = [
    (1000, [None, None, None], 930),
    (70, [None, None, None], 0),
    (69, [None, None, MEMORY], 0),
    (68, [None, MEMORY, FAILED], 0),
    (66, [None, MEMORY, FAILED], 0),
    (65, [MEMORY, FAILED, FAILED], 0),
    (0, [MEMORY, FAILED, FAILED], 0),
];

#[test]
fn a_context_fails_beyond_its_limit(rt: HostRuntime) -> Result<(), Fail> {
    let setup = Setup::new(&rt, rt.alloc())?;
    for &(limit, wanted, left) in &LIMITS {
        let mut ctx = setup.context()?;
        ctx.limit(limit);
        let answers = [
            ctx.push_str("ab").err(),
            ctx.charge(3).err(),
            ctx.push_str("c").err(),
        ];
        assert_of(&rt, &answers, &wanted, limit);
        assert_of(&rt, &ctx.room(), &left, limit);
        assert_of(&rt, &ctx.has_failed(), &(limit < 70), limit);
    }
    Ok(())
}

#[test]
fn a_stripped_text_takes_its_bytes_twice(rt: HostRuntime) -> Result<(), Fail> {
    let setup = Setup::new(&rt, rt.alloc())?;
    let mut ctx = setup.context()?;
    ctx.limit(100);
    let before = ctx.may_strip_periods(true);
    ctx.push_str("a.b.")?;
    ctx.stop_stripping_periods(before);
    assert_same(&rt, &ctx.room(), &(100 - 4 - 2 - 64));
    Ok(())
}
