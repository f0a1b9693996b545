//! The name forms of a citation: copies, more names, fuller forms, and the fuller of two.

use crate::assertions::assert_same;
use crate::shared::{assert_cases, put, string};
use csl_elements::NameVariable;
use csl_entry::{DisambiguatedNameForm as Form, NameDisambiguationProperties};
use csl_laws::calls::count_form;
use std::alloc::Global;
use std::process::Abort;
use std::test::Fail;

/// The form of a name, by its letter. Any other letter is for a name that is not shown.
fn form_of(letter: char) -> Option<Form> {
    match letter {
        'c' => Some(Form::Count),
        's' => Some(Form::ShortInitialized),
        'S' => Some(Form::ShortFull),
        'l' => Some(Form::LongInitialized),
        'L' => Some(Form::LongFull),
        _ => None,
    }
}

fn letter_of(form: Option<Form>) -> char {
    ['c', 's', 'S', 'l', 'L']
        .into_iter()
        .find(|letter| form_of(*letter) == form)
        .unwrap_or('-')
}

/// Properties with these lists of forms, the first of the author, the second of the editor, and the
/// third of the author once more. Each word is a list, with a letter for each name, and `.` is a list
/// without names.
fn properties(
    rt: &impl Abort,
    alloc: Global,
    default: Form,
    lists: &str,
) -> NameDisambiguationProperties {
    let variables = [
        NameVariable::Author,
        NameVariable::Editor,
        NameVariable::Author,
    ];
    let mut name_forms = Vec::new(alloc);
    for list in lists.split_whitespace() {
        let mut forms = Vec::new(alloc);
        for letter in list.chars() {
            if letter != '.' {
                put(rt, &mut forms, form_of(letter));
            }
        }
        put(rt, &mut name_forms, forms);
    }
    let variables = Vec::from_array(alloc, variables).expect(rt, "memory");
    NameDisambiguationProperties::new(default, variables, name_forms)
}

/// The default form and each list, as letters.
fn letters_of(rt: &impl Abort, alloc: Global, properties: &NameDisambiguationProperties) -> String {
    let mut letters = String::new(alloc);
    let default = letter_of(Some(properties.default_name_form()));
    letters.push(default).expect(rt, "memory");
    for forms in properties.name_forms() {
        let begin = if forms.is_empty() { " ." } else { " " };
        letters.push_str(begin).expect(rt, "memory");
        for form in forms {
            letters.push(letter_of(*form)).expect(rt, "memory");
        }
    }
    letters
}

#[test]
fn copies_are_equal(rt: HostRuntime) -> Result<(), Fail> {
    let author = properties(&rt, rt.alloc(), Form::ShortFull, "S- L . c");
    assert!(rt; author.clone(rt.alloc())? == author, "of the author");
    Ok(())
}

/// How many names a call shows, lists, the default form with the lists after the call, and its answer.
const ADDITIONS: &str = "
3: -- --- => L -- LLL true
4: -- --- => L -- --- false
2: s-- L => L sL- L true
1: S- => L S- true
1: . - => L . L true
0: => L false
";

#[test]
fn names_are_added_in_the_first_list_of_so_many(rt: HostRuntime) {
    let alloc = rt.alloc();
    let answer = |case: &str| {
        let (count, lists) = case.split_once(':').expect(&rt, "a number");
        let count = count.parse::<usize>().ok().expect(&rt, "a number");
        let mut properties = properties(&rt, alloc, Form::LongFull, lists);
        let is_there = properties.add_name(count);
        let letters = letters_of(&rt, alloc, &properties);
        format!(in alloc; "{letters} {is_there}").expect(&rt, "memory")
    };
    assert_cases(&rt, alloc, ADDITIONS, &answer);
}

/// A variable, places, lists, and the default form with the lists after the call and its answer, or
/// that the call is not allowed.
const LISTS: &str = "
author 010: -s S => S Ll S true
author : -s S => S -s S false
editor 0: -s S => S -s L true
editor 1: -s S => not allowed
chair 0: -s S => S -s S false
author 01: cL S => S cL S false
editor : S => not allowed
author 0: . S - => not allowed
";

#[test]
fn names_of_the_variable_are_disambiguated(rt: HostRuntime) {
    let alloc = rt.alloc();
    let answer = |case: &str| {
        let (head, lists) = case.split_once(':').expect(&rt, "lists");
        let (name, digits) = head.split_once(' ').expect(&rt, "places");
        let variable = NameVariable::from_name(name).expect(&rt, "a variable");
        let mut places: Vec<usize> = Vec::new(alloc);
        for digit in digits.chars() {
            put(&rt, &mut places, if digit == '0' { 0 } else { 1 });
        }
        let mut properties = properties(&rt, alloc, Form::ShortFull, lists);
        if !properties.can_disambiguate(variable, &places) {
            return string(&rt, alloc, "not allowed");
        }
        let is_changed = properties.disambiguate_list(variable, &places);
        let letters = letters_of(&rt, alloc, &properties);
        format!(in alloc; "{letters} {is_changed}").expect(&rt, "memory")
    };
    assert_cases(&rt, alloc, LISTS, &answer);
    // Initials stay so, unless given names may be written out.
    let fuller = [false, true].map(|full| Form::LongInitialized.disambiguate(full));
    assert_same(&rt, &fuller, &[None, Some(Form::LongFull)]);
}

/// The lists of two properties, and the properties that show more. The default form of the first is a
/// count, and that of the second the fullest form.
const MAX: &str = "
S- l / S- l => L S- l
SS / L- => c SS
L- / SS => L SS
L- / S- => c L-
S / S - => L S -
";

#[test]
fn the_greater_shows_more_names_or_later_forms(rt: HostRuntime) {
    let alloc = rt.alloc();
    let answer = |case: &str| {
        let (first, second) = case.split_once(" / ").expect(&rt, "two");
        let one = properties(&rt, alloc, Form::Count, first);
        let other = properties(&rt, alloc, Form::LongFull, second);
        letters_of(&rt, alloc, &one.max(other))
    };
    assert_cases(&rt, alloc, MAX, &answer);
}

/// An index among all forms, lists, the form there, and the lists after a count replaced it. Where no
/// name is shown it is the default form.
const FORMS: &str = "
0: S- l => S, L c- l
1: S- l => L, c S- l
1: S . s l => s, L S . c l
0: => L, c
";

#[test]
fn a_form_is_lent_at_its_place_or_the_default_one(rt: HostRuntime) {
    let alloc = rt.alloc();
    let answer = |case: &str| {
        let (index, lists) = case.split_once(':').expect(&rt, "an index");
        let index = index.parse::<usize>().ok().expect(&rt, "an index");
        let mut properties = properties(&rt, alloc, Form::LongFull, lists);
        let form = letter_of(count_form(&mut properties, index));
        let letters = letters_of(&rt, alloc, &properties);
        format!(in alloc; "{form}, {letters}").expect(&rt, "memory")
    };
    assert_cases(&rt, alloc, FORMS, &answer);
}
