//! Checks on a context that ran out of memory: each later call that returns a `Result` has to
//! return [`RenderError::Failed`].

use crate::error::WorkError;
use csl::context::Mark;
use csl::literature::ChunkedString;
use csl::style::{
    Affixes, DateVariable, Formatting, LongShortForm, NameVariable, NumberVariable, PageVariable,
    StandardVariable,
};
use csl::{Context, EntryLike, RenderCsl, RenderError};

/// Whether a call returned that the context had failed already.
fn says_failed<A: Drop>(answer: Result<A, RenderError>) -> bool {
    matches!(answer, Err(RenderError::Failed))
}

/// Whether each call that writes returns that the context has failed.
fn writing_fails<T>(ctx: &mut Context<'_, T>) -> bool {
    let no_chunks = ChunkedString(Vec::new(ctx.alloc()));
    says_failed(ctx.ensure_live())
        && says_failed(ctx.push_str(""))
        && says_failed(ctx.push_chunked(&no_chunks))
        && says_failed(ctx.push_link("", ""))
        && says_failed(ctx.push_transparent(0))
        && says_failed(ctx.ensure_space())
}

/// Whether each call that opens something returns that the context has failed.
fn opening_fails<'s, T>(ctx: &mut Context<'s, T>) -> bool {
    let style = ctx.style();
    says_failed(ctx.push_elem())
        && says_failed(ctx.apply_prefix())
        && says_failed(ctx.push_quotes())
        && says_failed(ctx.push_format(Formatting::default()))
        && says_failed(ctx.push_delimiter(None))
        && says_failed(ctx.enter_format(Formatting::default()))
        && says_failed(ctx.enter_delimiter(None))
        && says_failed(ctx.push_name_options(&style.settings().names))
}

/// Whether each call that closes a part returns that the context has failed. A failed context takes
/// any mark.
fn closing_fails<T>(ctx: &mut Context<'_, T>, mark: Mark) -> bool {
    says_failed(ctx.commit_elem(mark, None, None))
        && says_failed(ctx.splice(mark))
        && says_failed(ctx.splice_affixed(mark, None, None))
        && says_failed(ctx.apply_suffix(&Affixes::default(), mark, false))
        && says_failed(ctx.pop_quotes(mark, None))
}

/// Whether each silent lookup returns that the context has failed.
fn peeking_fails<T: EntryLike>(ctx: &Context<'_, T>) -> bool {
    says_failed(ctx.peek_number_variable(NumberVariable::Volume))
        && says_failed(ctx.peek_page_variable(PageVariable::Page))
        && says_failed(ctx.peek_standard_variable(LongShortForm::Long, StandardVariable::Title))
        && says_failed(ctx.peek_name_variable(NameVariable::Author))
        && says_failed(ctx.peek_date_variable(DateVariable::Issued))
}

/// Whether each lookup for printing returns that the context has failed.
fn looking_fails<T: EntryLike>(ctx: &mut Context<'_, T>) -> bool {
    says_failed(ctx.resolve_number_variable(NumberVariable::Volume))
        && says_failed(ctx.resolve_page_variable(PageVariable::Page))
        && says_failed(ctx.resolve_standard_variable(LongShortForm::Long, StandardVariable::Title))
        && says_failed(ctx.resolve_name_variable(NameVariable::Author))
        && says_failed(ctx.resolve_date_variable(DateVariable::Issued))
}

/// Whether each call of a layout returns that the context has failed.
fn rendering_fails<'s, T: EntryLike>(ctx: &mut Context<'s, T>) -> bool {
    let layout = ctx.style().citation();
    says_failed(layout.render(ctx))
        && says_failed(layout.will_have_info(ctx))
        && says_failed(layout.will_render(ctx, DateVariable::Issued.into()))
}

/// Whether each call of a context except `finish` returns that it has failed. The mark for the
/// closing calls is from another context of the same cite.
fn all_fail<'s, T: EntryLike>(ctx: &mut Context<'s, T>) -> Result<bool, WorkError> {
    let failed = ctx.has_failed()
        && writing_fails(ctx)
        && opening_fails(ctx)
        && peeking_fails(ctx)
        && looking_fails(ctx)
        && rendering_fails(ctx);
    let mut other = Context::new(ctx.alloc(), ctx.style(), ctx.instance(), ctx.scope())?;
    let mark = other.push_elem();
    drop(other);
    Ok(failed && closing_fails(ctx, mark?))
}

/// The error of a failed rendering: out of memory, unless a later call of the context does not
/// return that it has failed.
pub fn refusal<'s, T: EntryLike>(mut ctx: Context<'s, T>) -> WorkError {
    let all_fail = all_fail(&mut ctx);
    if ctx.has_failed() && says_failed(ctx.finish()) && !matches!(all_fail, Ok(false)) {
        WorkError::Memory
    } else {
        WorkError::Unexpected("a call went on after a refusal")
    }
}
