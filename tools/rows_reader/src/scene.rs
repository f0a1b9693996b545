//! Scenes: what nodes are rendered for, and the results of their calls in words.

use crate::answers::add_rendered;
use crate::fault::Fault;
use crate::question::Question;
use crate::tree_words::{add_state, add_word};
use crate::work::Work;
use csl::context::{Context, LeftState, RenderError, Rendered};
use csl::render::{BranchConditionIter, RenderCsl};
use csl::style::{ChooseBranch, LayoutRenderingElement, RenderingElement, Variable};
use csl::{InstanceContext, Scope, Style};
use std::alloc::Global;

/// The inputs of a context, the text before the nodes, and the nodes.
#[derive(Drop)]
pub struct Scene<'s> {
    pub alloc: Global,
    pub style: &'s Style,
    pub cite: InstanceContext<'s, Work>,
    pub scope: Scope,
    pub start: &'s LeftState,
    pub before: &'s str,
    pub element: &'s RenderingElement,
}

/// Appends a word, if `is_so`.
fn add_if(words: &mut String, is_so: bool, word: &str) -> Result<(), Fault> {
    if is_so { add_word(words, word) } else { Ok(()) }
}

impl<'s> Scene<'s> {
    /// A new context of the cite, in the state in which the nodes begin.
    fn context(&self) -> Result<Context<'s, Work>, Fault> {
        Ok(Context::resume(self.alloc, self.style, self.cite, self.scope, self.start)?)
    }

    /// The result of a call in a new context, after the text before the nodes, and the content and
    /// the state after the call.
    fn after<R: Drop, F: FnOnce(&mut Context<'s, Work>) -> Result<R, RenderError>>(
        &self,
        call: F,
    ) -> Result<(R, Rendered), Fault> {
        let mut ctx = self.context()?;
        let outcome = match ctx.push_str(self.before) {
            Ok(()) => call(&mut ctx),
            Err(error) => Err(error),
        };
        match outcome {
            Ok(value) => Ok((value, ctx.finish()?)),
            Err(error) => {
                drop(ctx);
                Err(Fault::from(error))
            }
        }
    }

    /// Appends the content or the state of the nodes.
    pub fn add_content(&self, words: &mut String, question: Question) -> Result<(), Fault> {
        let (_, rendered) = self.after(|ctx| self.element.render(ctx))?;
        add_rendered(self.alloc, words, question, &rendered)
    }

    /// Appends that a call changed the content or the state, if it did.
    fn add_change(&self, words: &mut String, after: &Rendered) -> Result<(), Fault> {
        let (_, before) = self.after(|_| Ok(()))?;
        let mut state = String::new(self.alloc);
        add_state(&mut state, &before.state)?;
        let mut state_after = String::new(self.alloc);
        add_state(&mut state_after, &after.state)?;
        let is_same = before.content == after.content && state.as_str() == state_after.as_str();
        add_if(words, !is_same, "changed")
    }

    /// Appends the usage flags of a dry run.
    pub fn add_flags(&self, words: &mut String) -> Result<(), Fault> {
        let ((prints, usage), after) = self.after(|ctx| self.element.will_have_info(ctx))?;
        add_if(words, prints, "prints")?;
        add_if(words, usage.has_vars, "called")?;
        add_if(words, usage.has_non_empty_vars, "non-empty")?;
        add_if(words, usage.has_used_macros, "macro")?;
        add_if(words, usage.has_non_empty_group, "group")?;
        self.add_change(words, &after)
    }

    /// Appends whether the nodes would show a variable.
    pub fn add_shows(&self, words: &mut String, variable: Variable) -> Result<(), Fault> {
        let (is_shown, after) = self.after(|ctx| self.element.will_render(ctx, variable))?;
        words.push_str(if is_shown { "yes" } else { "no" })?;
        self.add_change(words, &after)
    }

    /// Appends the result of each test of the first branch of the choice that the layout begins
    /// with.
    pub fn add_tests(&self, words: &mut String) -> Result<(), Fault> {
        let ctx = self.context()?;
        let outcome = add_conditions(words, self.element, &ctx);
        drop(ctx);
        outcome
    }

    /// The errors of two calls in one context: rendering and, before it or after it, a dry run. Then
    /// whether the context has failed.
    fn errors(&self, is_dry_first: bool) -> Result<String, Fault> {
        let mut ctx = self.context()?;
        let mut words = String::new(self.alloc);
        for is_dry in [is_dry_first, !is_dry_first] {
            let error = if is_dry {
                self.element.will_have_info(&mut ctx).err()
            } else {
                self.element.render(&mut ctx).err()
            };
            add_word(&mut words, error_word(error))?;
        }
        add_word(&mut words, if ctx.has_failed() { "failed" } else { "live" })?;
        drop(ctx);
        Ok(words)
    }

    /// Appends the errors of rendering and of a dry run after it, and whether the context has failed:
    /// `none none live` or `memory failed failed`. If they differ with the dry run first, appends
    /// those too.
    pub fn add_errors(&self, words: &mut String) -> Result<(), Fault> {
        let (errors, others) = (self.errors(false)?, self.errors(true)?);
        add_word(words, errors.as_str())?;
        add_if(words, errors.as_str() != others.as_str(), others.as_str())
    }
}

/// The word for the error of a call, or for none.
fn error_word(error: Option<RenderError>) -> &'static str {
    match error {
        None => "none",
        Some(RenderError::Memory) => "memory",
        Some(RenderError::Failed) => "failed",
    }
}

/// The first branch of the choice that a layout begins with.
fn first_branch(element: &RenderingElement) -> Result<&ChooseBranch, Fault> {
    if let RenderingElement::Layout(layout) = element {
        if let Some(LayoutRenderingElement::Choose(choose)) = layout.elements.first() {
            return Ok(&choose.if_);
        }
    }
    Err(Fault::Wrong("no choice at the beginning of a layout"))
}

fn add_conditions<'s>(
    words: &mut String,
    element: &RenderingElement,
    ctx: &Context<'s, Work>,
) -> Result<(), Fault> {
    for condition in BranchConditionIter::from_branch(first_branch(element)?, ctx) {
        words.push(if condition? { '1' } else { '0' })?;
    }
    Ok(())
}
