//! The answers to what a row asks of its style, its nodes and its cite, in words.

use crate::cite::{CITE, properties, special_form, start};
use crate::driver::list_style;
use crate::entry::entry;
use crate::fault::Fault;
use crate::form::Forms;
use crate::layouts::add_of_layout;
use crate::nodes::{layout_line, node_line};
use crate::question::Question;
use crate::scene::Scene;
use crate::style::style;
use crate::tree_words::{add_state, add_tree};
use crate::work::Work;
use csl::context::Rendered;
use csl::render::Pair;
use csl::style::RenderingElement;
use csl::{
    CiteProperties, InstanceContext, Scope, Style, bibliography_entry, cite, cite_pair, render_pair,
};
use csl_finish::without_case_marks;
use csl_list::ListStyle;
use std::alloc::Global;

/// The lines that a row consists of. All but those of the style are parsed for each question.
#[derive(Clone, Copy)]
pub struct Row<'r> {
    pub alloc: Global,
    pub base: &'r str,
    pub style: &'r str,
    /// The line of a tree, of HTML or of a work, or nothing for a row about nodes.
    pub subject: &'r str,
    /// The line of what a snapshot of the work keeps, or nothing.
    pub snapshot: &'r str,
    /// The line of the nodes, or nothing for the style's own layout.
    pub nodes: &'r str,
    pub entry: &'r str,
    /// The line of the entry beside it, or nothing.
    pub beside: &'r str,
    pub cite: &'r str,
}

/// Whether the whole style is within these limits, and not if one of them is less.
fn are_least(
    alloc: Global,
    style: &Style,
    (rendered, size, depth): (u64, u64, usize),
) -> Result<bool, Fault> {
    Ok(
        style.all_within(alloc, rendered, size, depth)?
            && !style.all_within(alloc, rendered.saturating_sub(1), size, depth)?
            && !style.all_within(alloc, rendered, size.saturating_sub(1), depth)?
            && !style.all_within(alloc, rendered, size, depth.saturating_sub(1))?,
    )
}

/// The answer of a style, whatever the layout is.
fn answer_of_style<'s>(
    alloc: Global,
    style: &'s Style,
    question: Question,
    scope: Scope,
) -> Result<Option<&'s str>, Fault> {
    let answer = match question {
        Question::MissingMacro => style.missing_macro().unwrap_or(""),
        Question::Suffix if style.renders_year_suffix_implicitly(scope) => "implicit",
        Question::Suffix => "explicit",
        Question::AllWithin(rendered, size, depth) => {
            let are_least = are_least(alloc, style, (rendered, size, depth))?;
            if are_least { "yes" } else { "no" }
        }
        _ => return Ok(None),
    };
    Ok(Some(answer))
}

impl<'r> Row<'r> {
    /// The forms of the style: those of its own line come before those of all rows.
    fn style_forms(&self) -> Result<Forms<'r>, Fault> {
        let mut forms = Forms::read(self.alloc, self.style)?;
        for form in Forms::read(self.alloc, self.base)?.items {
            forms.items.push(form)?;
        }
        Ok(forms)
    }

    /// The style.
    pub fn style(&self) -> Result<Style, Fault> {
        style(&self.style_forms()?)
    }

    /// The style with its options for a document.
    pub fn list_style(&self) -> Result<ListStyle, Fault> {
        let forms = self.style_forms()?;
        list_style(&forms, style(&forms)?)
    }

    /// The nodes, if a line has some.
    pub fn element(&self) -> Result<Option<RenderingElement>, Fault> {
        let (word, rest) = self.nodes.split_once(' ').unwrap_or((self.nodes, ""));
        let forms = Forms::read(self.alloc, rest)?;
        match word {
            "node" => Ok(Some(node_line(&forms)?)),
            "layout" => Ok(Some(layout_line(&forms)?)),
            _ => Ok(None),
        }
    }

    /// The entry of a line.
    pub fn work(&self, line: &str) -> Result<Work, Fault> {
        entry(&Forms::read(self.alloc, line)?)
    }

    /// The answer to a question in the style of the row.
    pub fn answer(&self, style: &Style, question: Question) -> Result<String, Fault> {
        let forms = Forms::read(self.alloc, self.cite)?;
        let cite_props = properties(&forms)?;
        let work = self.work(self.entry)?;
        let scope = forms.choice("scope")?.unwrap_or(Scope::Citation);
        let mut words = String::new(self.alloc);
        if let Some(answer) = answer_of_style(self.alloc, style, question, scope)? {
            words.push_str(answer)?;
            return Ok(words);
        }
        match self.element()? {
            Some(element) => {
                let start = start(&forms)?;
                let scene = Scene {
                    alloc: self.alloc,
                    style,
                    cite: InstanceContext {
                        entry: &work,
                        cite_props: &cite_props,
                        sorting: forms.choice("sort")?,
                        kind: special_form(&forms)?,
                    },
                    scope,
                    start: &start,
                    before: forms.value("before").unwrap_or(""),
                    element: &element,
                };
                self.add_answer(&mut words, question, &scene)?;
            }
            None => {
                forms.ensure_attributes(&[CITE])?;
                let own = (style, &work, &cite_props);
                self.add_own_answer(&mut words, question, scope, own)?;
            }
        }
        Ok(words)
    }

    /// Appends the answer of these nodes.
    fn add_answer(
        &self,
        words: &mut String,
        question: Question,
        scene: &Scene<'_>,
    ) -> Result<(), Fault> {
        match question {
            Question::Text(_) | Question::Tree | Question::Left => {
                scene.add_content(words, question)
            }
            Question::Dry => scene.add_flags(words),
            Question::Shows(variable) => scene.add_shows(words, variable),
            Question::Tests => scene.add_tests(words),
            Question::Errors => scene.add_errors(words),
            Question::Pair => self.add_pair(words, scene),
            Question::OfLayout(question) => match scene.element {
                RenderingElement::Layout(layout) => {
                    add_of_layout(words, self.alloc, scene.style, layout, question)
                }
                _ => Err(Fault::Wrong("this needs a layout")),
            },
            _ => Err(Fault::Wrong("this is asked of a work, of a tree or of HTML")),
        }
    }

    /// The entry beside that of the row.
    fn other_work(&self) -> Result<Work, Fault> {
        match self.beside.strip_prefix("beside") {
            Some(rest) => self.work(rest),
            None => Err(Fault::Wrong("a pair needs a beside line")),
        }
    }

    fn add_pair(&self, words: &mut String, scene: &Scene<'_>) -> Result<(), Fault> {
        let RenderingElement::Layout(layout) = scene.element else {
            return Err(Fault::Wrong("a pair needs a layout"));
        };
        let right = self.other_work()?;
        let pair = render_pair(
            self.alloc,
            scene.style,
            layout,
            scene.scope,
            scene.cite.cite_props,
            scene.cite.sorting,
            scene.cite.kind,
            scene.start,
            scene.cite.entry,
            &right,
        )?;
        add_pair_words(words, &pair)
    }

    /// Appends the answer of the style's own layout.
    fn add_own_answer(
        &self,
        words: &mut String,
        question: Question,
        scope: Scope,
        (style, work, cite_props): (&Style, &Work, &CiteProperties<'_>),
    ) -> Result<(), Fault> {
        match (question, scope) {
            (Question::Text(_) | Question::Tree | Question::Left, Scope::Citation) => {
                let rendered = cite(self.alloc, style, work, cite_props)?;
                add_rendered(self.alloc, words, question, &rendered)
            }
            (Question::Text(_) | Question::Tree | Question::Left, Scope::Bibliography) => {
                match bibliography_entry(self.alloc, style, work, cite_props)? {
                    Some(rendered) => add_rendered(self.alloc, words, question, &rendered),
                    None => Ok(words.push_str("(no bibliography)")?),
                }
            }
            (Question::Pair, Scope::Citation) => {
                let right = self.other_work()?;
                let pair = cite_pair(self.alloc, style, cite_props, work, &right)?;
                add_pair_words(words, &pair)
            }
            (Question::OfLayout(question), _) => match style.layout(scope) {
                Some(layout) => add_of_layout(words, self.alloc, style, layout, question),
                None => Ok(words.push_str("(no bibliography)")?),
            },
            _ => Err(Fault::Wrong("this needs a layout or a node line")),
        }
    }
}

/// Appends the content or the state of a rendering. Texts have no case outside of a document, so
/// they are without the marks of one.
pub fn add_rendered(
    alloc: Global,
    words: &mut String,
    question: Question,
    rendered: &Rendered,
) -> Result<(), Fault> {
    match question {
        Question::Text(format) => {
            let text = rendered.content.to_text(alloc, format)?;
            let text = without_case_marks(alloc, text.as_str())?;
            Ok(words.push_str(text.as_str())?)
        }
        Question::Left => add_state(words, &rendered.state),
        _ => add_tree(words, &rendered.content),
    }
}

/// Appends whether two entries are alike, and the HTML of both. Alike entries have equal contents.
fn add_pair_words(words: &mut String, pair: &Pair) -> Result<(), Fault> {
    let is_same = pair.left.content == pair.right.content;
    words.push_str(match (pair.alike, is_same) {
        (true, true) => "alike: ",
        (true, false) => "alike with other contents: ",
        (false, _) => "not alike: ",
    })?;
    words.push_str(pair.left_html.as_str())?;
    words.push_str(", ")?;
    Ok(words.push_str(pair.right_html.as_str())?)
}
