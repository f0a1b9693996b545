//! The subject of a row that is not about nodes: a tree, HTML or a work. Its line begins the row.

use crate::answers::Row;
use crate::entry_answers::{add_answers, add_answers_of_snapshot, are_alike, is_same, named};
use crate::fault::Fault;
use crate::form::Forms;
use crate::literature::work;
use crate::question::{OfTree, Question, unquoted};
use crate::tree_answers::{add_leaf, add_of_tree, add_written};
use crate::trees::tree;
use csl::Entry;

/// The word of a line, and the rest.
pub fn split_line(line: &str) -> (&str, &str) {
    line.split_once(' ').unwrap_or((line, ""))
}

impl<'r> Row<'r> {
    /// Fails if the line of a subject, of a snapshot or of a second work cannot be parsed.
    pub fn ensure_subject(&self, line: &str) -> Result<(), Fault> {
        let (word, rest) = split_line(line);
        match word {
            "html" => {}
            "tree" => drop(tree(&Forms::read(self.alloc, rest)?)?),
            "snapshot" => drop(named(&Forms::read(self.alloc, rest)?)?),
            _ => drop(work(&Forms::read(self.alloc, rest)?)?),
        }
        Ok(())
    }

    /// Whether the subject is a work.
    pub fn has_work(&self) -> bool {
        split_line(self.subject).0 == "work"
    }

    /// The answer about the subject.
    pub fn answer_of_subject(&self, question: Question, wanted: &str) -> Result<String, Fault> {
        let (word, rest) = split_line(self.subject);
        let mut words = String::new(self.alloc);
        match word {
            "tree" => self.add_of_tree(&mut words, rest, question, wanted)?,
            "html" => match question {
                Question::OfTree(OfTree::Leaf) => {
                    add_leaf(&mut words, self.alloc, unquoted(rest))?;
                }
                _ => return Err(Fault::Wrong("this is not asked of HTML")),
            },
            _ => self.add_of_work(&mut words, rest, question, wanted)?,
        }
        Ok(words)
    }

    fn add_of_tree(
        &self,
        words: &mut String,
        text: &str,
        question: Question,
        wanted: &str,
    ) -> Result<(), Fault> {
        let tree = tree(&Forms::read(self.alloc, text)?)?;
        match question {
            Question::Text(format) => add_written(words, self.alloc, &tree, format),
            Question::OfTree(question) => {
                add_of_tree(words, self.alloc, &tree, question, wanted)
            }
            _ => Err(Fault::Wrong("this is not asked of a tree")),
        }
    }

    fn add_of_work(
        &self,
        words: &mut String,
        text: &str,
        question: Question,
        wanted: &str,
    ) -> Result<(), Fault> {
        let entry = work(&Forms::read(self.alloc, text)?)?;
        let forms = Forms::read(self.alloc, wanted)?;
        match question {
            Question::Answers if self.snapshot.is_empty() => {
                add_answers(words, &entry, Some(&entry), &forms)
            }
            Question::Answers => {
                let kept = Forms::read(self.alloc, split_line(self.snapshot).1)?;
                add_answers_of_snapshot(words, &entry, &named(&kept)?, &forms)
            }
            Question::Alike(is_wanted) => {
                let other = self.other_entry()?;
                let are_alike = are_alike(self.alloc, &entry, &other, &named(&forms)?)?;
                let came = if are_alike { "alike" } else { "not alike" };
                Ok(words.push_str(if are_alike == is_wanted { wanted } else { came })?)
            }
            Question::Same(is_wanted) => {
                let other = self.other_entry()?;
                let variable = forms.named(forms.only_word()?)?;
                let is_same = is_same(self.alloc, &entry, &other, variable)?;
                let came = if is_same { "the same" } else { "another" };
                Ok(words.push_str(if is_same == is_wanted { wanted } else { came })?)
            }
            _ => Err(Fault::Wrong("this is not asked of a work")),
        }
    }

    /// The work of the line `beside`.
    fn other_entry(&self) -> Result<Entry, Fault> {
        match split_line(self.beside) {
            ("beside", rest) => work(&Forms::read(self.alloc, rest)?),
            _ => Err(Fault::Wrong("a second work needs a beside line")),
        }
    }
}
