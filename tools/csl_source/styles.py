"""A whole style and its locales, as a file of the program that uses them."""
import os
from typing import Sequence

from csl_source import cases, library, lists
from csl_source.code import (Call, Expression, Local, Step, Vector, comment, function, lines_of,
                             over, quoted, snake, unique)
from csl_source.elements import Elements, formatting, given, name_options, some
from csl_source.locales import HELPERS, Locales, options_of
from sulleqti.attributes import Tree
from sulleqti.styles import LAYOUTS, Style, plain

# A function adds so many macros.
MACROS = 30


class StyleFile:
    """Writes a style with its locales, which have these names, as a file, or as a module inside of
    one. It has marks of text cases, for `csl_list`, or leaves the cases out."""

    def __init__(self, style: Style, locales: Sequence[str], module: str | None = None,
                 has_cases: bool = False) -> None:
        self.style, self.tree, self.names = style, style.tree["style"], locales
        self.module, self.indent, self.has_cases = module, 4 if module else 0, has_cases
        if has_cases:
            self.tree = cases.marked(self.tree)
        else:
            style.left["`text-case`"] += style.elements.cases
        own = ["style", "style_settings", "list_style", *(f"{name}_options" for name in LAYOUTS)]
        taken = dict.fromkeys([*own, *HELPERS], 2)
        self.elements = Elements(taken, self.indent)
        self.locales = Locales(self.elements)

    def text(self) -> str:
        """The text of the file, or of the module."""
        settings = self.settings()
        layouts = [self.layout(name) for name in LAYOUTS]
        added = self.macro_lists([self.macro(macro) for macro in self.tree["macros"]])
        names = [name for name, _ in added]
        main = self.main(bool(settings), names, layouts, self.locale_calls())
        is_english = not self.has_cases or self.style.language.lower().startswith("en")
        blocks = [main, *lists.list_style(self.style.tree, is_english, self.indent)]
        blocks += [settings] if settings else []
        blocks += [*(lines for _, lines in added), *self.elements.functions]
        return self.joined([*blocks, *self.locales.written, *self.locales.helpers()])

    def joined(self, blocks: list[list[str]]) -> str:
        """The file of these blocks."""
        parts = [self.head(), self.uses(), *blocks]
        inside = "\n\n".join("\n".join(lines) for lines in parts)
        if not self.module:
            return f"{inside}\n"
        about = comment(f"The style “{self.style.title or self.module}”.", 0)
        return "\n".join([*about, f"pub mod {self.module} {{", inside, "}\n"])

    def head(self) -> list[str]:
        """What the file is, how it is made, and the style's rights."""
        words = [self.style.path, *(word for locale in self.names for word in ("--locale", locale))]
        words = [plain(os.path.basename(word)) for word in words]
        words += ["--module", self.module] if self.module else []
        words += ["--text-case"] if self.has_cases else []
        command = f"`tools/style {' '.join(words)}`"
        text = f"The style “{self.style.title}”, with its locale. {command} wrote this: change " \
            "the style there."
        text += " Its affixes have the marks of text cases: `csl_list` takes them, and so does " \
            "`csl_finish::apply_text_case`." if self.has_cases else " It has no text case."
        lines = comment(text, self.indent, "//!")
        if self.style.rights:
            lines.append(f"{' ' * self.indent}//!")
            lines += comment(f"Rights: {self.style.rights}", self.indent, "//!")
        return lines

    def uses(self) -> list[str]:
        """What the file imports."""
        names = ["csl::Error", "csl::style::*", "csl_list::*", "std::alloc::Global"]
        return [f"{' ' * self.indent}use {name};" for name in names]

    def errors(self) -> list[str]:
        """The lines of a comment on a function that says how it fails."""
        lines = ["///", "/// # Errors", "/// [`Error::Memory`]: out of memory."]
        return [" " * self.indent + line for line in lines]

    def settings(self) -> list[str] | None:
        """The function that returns the settings, or `None` if they are the defaults."""
        tree = self.tree
        fields: list[tuple[str, Expression | None]] = [
            ("page_range_format", some(given(tree, "page-range-format", "PageRangeFormat"))),
            ("demote_non_dropping_particle", given(tree, "demote-non-dropping-particle",
                                                   "DemoteNonDroppingParticle")),
            ("initialize_with_hyphen", given(tree, "initialize-with-hyphen", "flag"))]
        steps: list[Step] = []
        owners = {"names": tree, **{f"{layout}_names": tree.get(layout, {}) for layout in LAYOUTS}}
        for name, owner in owners.items():
            options = name_options(owner)
            if options is not None:
                local = Local(name)
                steps.append((local, options))
                fields.append((name, local))
        made = over("StyleSettings", fields, None)
        if made is None:
            return None
        made.base = "StyleSettings::default()"
        steps.append((Local("settings"), made))
        about = f"{' ' * self.indent}/// The options for all nodes."
        lines = function("style_settings", "StyleSettings", steps, "Ok(settings)", self.indent)
        return [about, *lines]

    def layout(self, name: str) -> str | None:
        """A call of the function that returns a layout, or `None`."""
        if name not in self.tree:
            return None
        tree = self.tree[name]
        self.elements.begin(name, f"the layout of the {name}")
        steps, nodes = self.elements.listed(tree["children"])
        layout, fields = Local("layout"), [("formatting", formatting(tree))]
        steps.append((layout, over("Layout", fields, Call("Layout::new", nodes))))
        about = f"The layout of the {name}, without the texts around it."
        return self.elements.function(f"{name}_layout", about, "Layout", steps, Call("Ok", layout))

    def macro(self, tree: Tree) -> str:
        """A call of the function that returns a macro."""
        name = tree["name"]
        word = snake(name, "macro").rstrip("_")
        self.elements.begin(word, f"the macro `{plain(name)}`")
        steps, nodes = self.elements.listed(tree["children"])
        made = Local("made")
        steps.append((made, Call("CslMacro::new", "alloc", quoted(name), nodes, tail="?")))
        about, value = f"The macro `{plain(name)}`.", Call("Ok", made)
        return self.elements.function(f"{word}_macro", about, "CslMacro", steps, value)

    def macro_lists(self, calls: list[str]) -> list[tuple[str, list[str]]]:
        """Functions that add the macros to a list, each with its name."""
        lists, space = [], " " * self.indent
        ends = "(alloc: Global, macros: &mut Vec<CslMacro>) -> Result<(), Error> {"
        for start in range(0, len(calls), MACROS):
            name = unique("add_macros", self.elements.taken)
            lines = [f"{space}/// Adds macros.", f"{space}fn {name}{ends}"]
            for call in calls[start:start + MACROS]:
                lines += lines_of("", Call("macros.push", call, tail="?"), ";", self.indent + 4)
            lists.append((name, [*lines, f"{space}    Ok(())", f"{space}}}"]))
        return lists

    def locale_calls(self) -> list[str]:
        """The calls that make the locales, in their order."""
        options, calls = options_of(self.tree["locales"]), []
        for locale, (language, is_own) in zip(self.tree["locales"], self.style.in_order):
            if isinstance(locale, str):
                calls.append(f"csl::{library.languages()[locale][0]}(alloc)?")
            else:
                own = {} if calls else options
                calls.append(self.locales.of(locale, language, is_own, own))
        return calls

    def main(self, has_settings: bool, macro_lists: list[str], layouts: list[str | None],
             locales: list[str]) -> list[str]:
        """The function that returns the style."""
        space = " " * self.indent
        citation, bibliography = layouts
        found = [f"{space}/// The style.", *self.errors(),
                 f"{space}pub fn style(alloc: Global) -> Result<Style, Error> {{"]
        settings = "style_settings(alloc)?" if has_settings else "StyleSettings::default()"
        steps: list[tuple[str, Expression]] = [
            ("let settings = ", settings),
            (f"let {'mut ' if macro_lists else ''}macros = ", "Vec::new(alloc)"),
            *(("", f"{name}(alloc, &mut macros)?") for name in macro_lists),
            ("let citation = ", citation or "None"),
            ("let bibliography = ", f"Some({bibliography})" if bibliography else "None"),
            ("let locales = ", Vector(locales)),
        ]
        arguments = ("alloc", "settings", "macros", "citation", "bibliography", "locales")
        steps.append(("let style = ", Call("Style::new", *arguments, tail="?")))
        for before, value in steps:
            found += lines_of(before, value, ";", self.indent + 4)
        return [*found, f"{space}    Ok(style)", f"{space}}}"]
