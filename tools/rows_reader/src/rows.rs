//! The lines of rows (`tests/rows/README.md`).
//!
//! A line that begins with a space continues the line before it. An empty line ends a row. `#`
//! begins a comment. A line `file NAME` begins a file: its lines count from 1, and no base is set.

use crate::answers::Row;
use crate::cite::properties;
use crate::fault::Fault;
use crate::form::Forms;
use crate::list_lines::ListLines;
use crate::question::{OfList, Question, question};
use crate::subjects::split_line;
use crate::tree_answers::add_not_html;
use csl::style::StyleError;
use csl::{BufWriteFormat, Style};
use std::alloc::Global;
use std::mem;

/// The lines of a row, and the counts of results.
#[derive(Drop)]
pub struct Rows {
    alloc: Global,
    /// Whether a row that wants nothing prints what came.
    is_trial: bool,
    file: String,
    base: String,
    style: String,
    subject: String,
    snapshot: String,
    nodes: String,
    entry: String,
    beside: String,
    cite: String,
    list: ListLines,
    /// The style of the base alone, once it is made.
    style_of_base: Option<Style>,
    /// The style of a row with a style line of its own, once it is made.
    style_of_row: Option<Style>,
    /// The line that may continue, and its number.
    line: String,
    number: usize,
    /// The number of the last line that was read.
    last: usize,
    /// Whether nothing is wanted yet of what the lines say.
    is_open: bool,
    pub rows: usize,
    pub as_wanted: usize,
}

impl Rows {
    /// No line, and no result.
    pub fn new(alloc: Global, is_trial: bool) -> Rows {
        Rows {
            alloc,
            is_trial,
            file: String::new(alloc),
            base: String::new(alloc),
            style: String::new(alloc),
            subject: String::new(alloc),
            snapshot: String::new(alloc),
            nodes: String::new(alloc),
            entry: String::new(alloc),
            beside: String::new(alloc),
            cite: String::new(alloc),
            list: ListLines::new(alloc),
            style_of_base: None,
            style_of_row: None,
            line: String::new(alloc),
            number: 0,
            last: 0,
            is_open: false,
            rows: 0,
            as_wanted: 0,
        }
    }

    /// Reads a line.
    pub fn read(&mut self, rt: &impl Print, line: &str) -> Result<(), Fault> {
        self.last = self.last.saturating_add(1);
        if line.starts_with(' ') && !line.trim_start_matches(' ').is_empty() {
            self.line.push(' ')?;
            self.line.push_str(line.trim_start_matches(' '))?;
            return Ok(());
        }
        self.end_line(rt)?;
        self.number = self.last;
        self.line = String::from_str(self.alloc, line)?;
        Ok(())
    }

    /// Ends the last row.
    pub fn end(&mut self, rt: &impl Print) -> Result<(), Fault> {
        self.read(rt, "")?;
        self.end_line(rt)
    }

    /// Does what the line says that may continue no more.
    fn end_line(&mut self, rt: &impl Print) -> Result<(), Fault> {
        let line = mem::replace(&mut self.line, String::new(self.alloc));
        match self.obey(rt, line.as_str()) {
            Ok(()) => Ok(()),
            Err(fault) => self.count_fault(rt, line.as_str(), fault),
        }
    }

    fn row(&self) -> Row<'_> {
        Row {
            alloc: self.alloc,
            base: self.base.as_str(),
            style: self.style.as_str(),
            subject: self.subject.as_str(),
            snapshot: self.snapshot.as_str(),
            nodes: self.nodes.as_str(),
            entry: self.entry.as_str(),
            beside: self.beside.as_str(),
            cite: self.cite.as_str(),
        }
    }

    fn obey(&mut self, rt: &impl Print, line: &str) -> Result<(), Fault> {
        if line.starts_with('#') {
            return Ok(());
        }
        let (word, rest) = split_line(line);
        if self.is_subject(word) {
            return self.keep(line, word, rest);
        }
        match (word, question(self.alloc, word, rest)?) {
            ("", _) => self.end_row(rt),
            ("file", _) => self.begin_file(rest),
            (_, Some((question, wanted))) => self.compare(rt, line, question, wanted),
            (_, None) => self.keep(line, word, rest),
        }
    }

    /// Whether a line has a subject of the row. A tree or HTML is one if the row begins with it, and
    /// so is each further one of a row that does.
    fn is_subject(&self, word: &str) -> bool {
        let own = split_line(self.subject.as_str()).0;
        let is_first = self.style.is_empty()
            && self.nodes.is_empty()
            && self.entry.is_empty()
            && self.cite.is_empty()
            && own.is_empty();
        match word {
            "work" => true,
            "tree" | "html" => is_first || own == word,
            _ => false,
        }
    }

    /// Begins a file, once its first line is being read.
    fn begin_file(&mut self, name: &str) -> Result<(), Fault> {
        self.last = 1;
        self.base.clear();
        self.style_of_base = None;
        self.file.clear();
        Ok(self.file.push_str(name)?)
    }

    /// Ends a row. If nothing is wanted of its last lines, it prints what came, or fails.
    fn end_row(&mut self, rt: &impl Print) -> Result<(), Fault> {
        let outcome = if self.is_open {
            self.end_open(rt)
        } else {
            Ok(())
        };
        self.is_open = false;
        self.style.clear();
        self.style_of_row = None;
        self.subject.clear();
        self.snapshot.clear();
        self.nodes.clear();
        self.entry.clear();
        self.beside.clear();
        self.cite.clear();
        self.list.clear();
        outcome
    }

    fn end_open(&mut self, rt: &impl Print) -> Result<(), Fault> {
        if !self.is_trial {
            return Err(Fault::Wrong("no line says what is wanted of the row that ends here"));
        }
        if !self.list.is_empty() {
            return self.print_list(rt);
        }
        let plain = self.answer(Question::Text(BufWriteFormat::Plain), "")?;
        let html = self.answer(Question::Text(BufWriteFormat::Html), "")?;
        print_came(rt, self.file.as_str(), self.number, "plain", plain.as_str())?;
        print_came(rt, self.file.as_str(), self.number, "html", html.as_str())
    }

    /// Prints the citations and the bibliography of a row that wants nothing of them.
    fn print_list(&mut self, rt: &impl Print) -> Result<(), Fault> {
        let mut list = mem::replace(&mut self.list, ListLines::new(self.alloc));
        let came = list.came(self.row());
        self.list = list;
        for (word, text) in &came? {
            print_came(
                rt,
                self.file.as_str(),
                self.number,
                word.as_str(),
                text.as_str(),
            )?;
        }
        Ok(())
    }

    /// The answer of the row's document to a question.
    fn answer_of_list(&mut self, question: OfList) -> Result<String, Fault> {
        let mut list = mem::replace(&mut self.list, ListLines::new(self.alloc));
        let answer = list.answer(self.row(), question);
        self.list = list;
        answer
    }

    /// Keeps what a line says of the row, and fails if it cannot be parsed.
    fn keep(&mut self, line: &str, word: &str, rest: &str) -> Result<(), Fault> {
        if self.list.keep(word, rest, !self.is_open)? {
            self.is_open = true;
            return Ok(());
        }
        self.list.forget();
        let kept = match word {
            "base" => &mut self.base,
            "style" => &mut self.style,
            "work" | "tree" | "html" => &mut self.subject,
            "snapshot" => &mut self.snapshot,
            "layout" | "node" => &mut self.nodes,
            "entry" => &mut self.entry,
            "beside" => &mut self.beside,
            "cite" => &mut self.cite,
            _ => return Err(Fault::of_word(self.alloc, "no such line", word)),
        };
        kept.clear();
        // Of these lines the word counts too.
        let is_whole = !matches!(word, "base" | "style" | "entry" | "cite");
        kept.push_str(if is_whole { line } else { rest })?;
        self.is_open = word != "base";
        if matches!(word, "base" | "style") {
            self.style_of_row = None;
            if word == "base" {
                self.style_of_base = None;
            }
            return match self.make_style() {
                // (a further line may want the refusal)
                Err(Fault::Refused(_)) if word == "style" => Ok(()),
                outcome => outcome,
            };
        }
        self.ensure_kept(line)
    }

    /// Fails if a line cannot be parsed that is kept and has no style.
    fn ensure_kept(&self, line: &str) -> Result<(), Fault> {
        let (row, (word, rest)) = (self.row(), split_line(line));
        match word {
            "work" | "tree" | "html" | "snapshot" => row.ensure_subject(line)?,
            "beside" if row.has_work() => row.ensure_subject(line)?,
            "entry" | "beside" => drop(row.work(rest)?),
            "cite" => drop(properties(&Forms::read(self.alloc, rest)?)?),
            _ => drop(row.element()?),
        }
        Ok(())
    }

    /// Makes the style of the row, unless its lines have made it already.
    fn make_style(&mut self) -> Result<(), Fault> {
        if !self.style.is_empty() {
            if self.style_of_row.is_none() {
                self.style_of_row = Some(self.row().style()?);
            }
        } else if self.style_of_base.is_none() {
            self.style_of_base = Some(self.row().style()?);
        }
        Ok(())
    }

    /// The answer of the row to a question. Some questions have a part in the wanted answer.
    fn answer(&mut self, question: Question, wanted: &str) -> Result<String, Fault> {
        if let Question::NotHtml = question {
            let mut words = String::new(self.alloc);
            add_not_html(&mut words, self.alloc, wanted)?;
            return Ok(words);
        }
        if let Question::OfList(question) = question {
            return self.answer_of_list(question);
        }
        if !self.subject.is_empty() {
            return self.row().answer_of_subject(question, wanted);
        }
        let outcome = self.make_style();
        if let Question::Refused = question {
            return refusal(self.alloc, outcome);
        }
        outcome?;
        let is_own = !self.style.is_empty();
        let made = if is_own {
            &self.style_of_row
        } else {
            &self.style_of_base
        };
        match made {
            Some(style) => self.row().answer(style, question),
            None => Err(Fault::Wrong("there is no style")),
        }
    }

    /// Compares the answer of the row with what is wanted.
    fn compare(
        &mut self,
        rt: &impl Print,
        line: &str,
        question: Question,
        wanted: &str,
    ) -> Result<(), Fault> {
        self.is_open = false;
        let answer = self.answer(question, wanted)?;
        self.rows = self.rows.saturating_add(1);
        if answer.as_str() == wanted {
            self.as_wanted = self.as_wanted.saturating_add(1);
            return Ok(());
        }
        let (file, number) = (self.file.as_str(), self.number);
        let came = answer.as_str();
        printed(rt.println(format_args!("{file}:{number}: {line}\n  came: {came}")))
    }

    /// Prints a fault, and counts it as a row that is not as wanted.
    fn count_fault(&mut self, rt: &impl Print, line: &str, fault: Fault) -> Result<(), Fault> {
        self.rows = self.rows.saturating_add(1);
        let reason = fault.words(self.alloc)?;
        let (file, number, reason) = (self.file.as_str(), self.number, reason.as_str());
        let gap = if line.is_empty() { "" } else { "\n  " };
        printed(rt.println(format_args!("{file}:{number}: {reason}{gap}{line}")))
    }
}

/// The result of printing.
pub fn printed<T: Drop, E: Drop>(outcome: Result<T, E>) -> Result<(), Fault> {
    match outcome {
        Ok(_) => Ok(()),
        Err(_) => Err(Fault::Memory),
    }
}

/// Prints a line as a row would have it.
fn print_came(
    rt: &impl Print,
    file: &str,
    number: usize,
    word: &str,
    came: &str,
) -> Result<(), Fault> {
    let quote = if came.trim() == came { "" } else { "\"" };
    printed(rt.println(format_args!("{file}:{number}: {word} {quote}{came}{quote}")))
}

/// What a style is refused for, in words.
fn refusal(alloc: Global, outcome: Result<(), Fault>) -> Result<String, Fault> {
    match outcome {
        Ok(()) => Ok(String::from_str(alloc, "no")?),
        Err(Fault::Refused(StyleError::CyclicMacro(name))) => {
            Ok(format!(in alloc; "cyclic {name}")?)
        }
        Err(Fault::Refused(StyleError::ChicagoPageFormat)) => {
            Ok(String::from_str(alloc, "chicago")?)
        }
        Err(fault) => Err(fault),
    }
}
