"""The options of a style for the citations and the bibliography of a document, as values of
`csl_list`: the functions of a module that return its `ListStyle`."""
from csl_source.code import Call, Expression, Fields, Local, Step, Struct, Vector, comment, function
from csl_source.elements import any_variable, given, some, string
from sulleqti.attributes import Tree
from sulleqti.styles import LISTED, TEXTS

# The fields of options that have other names than theirs, and those that may lack a value.
FIELDS = {"disambiguate-add-names": "adds_names", "disambiguate-add-givenname": "adds_given_names",
          "givenname-disambiguation-rule": "given_name_rule",
          "disambiguate-add-year-suffix": "adds_year_suffix",
          "subsequent-author-substitute": "author_substitute"}
OPTIONAL = ("collapse", "cite-group-delimiter", "year-suffix-delimiter",
            "after-collapse-delimiter", "second-field-align", "subsequent-author-substitute")


def option(tree: Tree, name: str, sort: str) -> Expression | None:
    """The value of an option, or `None`."""
    value = given(tree, name, sort)
    if name == "subsequent-author-substitute" and value is not None:
        rule = given(tree, f"{name}-rule", "SubstituteRule") or "SubstituteRule::CompleteAll"
        value = Struct("AuthorSubstitute", [("text", value), ("rule", rule)])
    return some(value) if name in OPTIONAL else value


def options(name: str, tree: Tree) -> Fields:
    """The options of a citation or of a bibliography, with the texts around its layout."""
    layout = tree["layout"]
    # (the bibliography has no delimiter)
    texts = [text for text in TEXTS if layout.get(text)]
    keys = [("keys", Vector([key(key_tree) for key_tree in tree["sort"]]))] if tree["sort"] else []
    return [*((text, string(layout[text])) for text in texts), *keys,
            *((FIELDS.get(field, field.replace("-", "_")), option(tree, field, sort))
              for field, sort in LISTED[name].items() if not field.endswith("substitute-rule"))]


def key(tree: Tree) -> Expression:
    """A key of a sort."""
    made = Call("SortKey::by_macro", string(tree["macro"])) if "macro" in tree \
        else Call("SortKey::by_variable", any_variable(tree["variable"]))
    if tree.get("sort") != "descending":
        return made
    return Struct("SortKey", [("is_descending", "true")], made)


def made(name: str, fields: Fields, indent: int) -> list[str]:
    """The function that returns the options of a citation or of a bibliography."""
    struct, local = f"{name.capitalize()}Options", Local(name)
    given = [(field, value) for field, value in fields if value is not None]
    new = Call(f"{struct}::new", "alloc")
    steps: list[Step] = [(local, Struct(struct, given, new) if given else new)]
    about = f"The options of the {name} for a document."
    lines = function(f"{name}_options", struct, steps, Call("Ok", local), indent)
    return [*comment(about, indent), *lines]


def list_style(tree: Tree, is_english: bool, indent: int) -> list[list[str]]:
    """The function that returns the style with its options, and those that it calls."""
    blocks = [made(name, options(name, tree[name]), indent) for name in LISTED if name in tree]
    bibliography = "None"
    steps: list[Step] = [(Local("style"), "style(alloc)?"),
                         (Local("citation"), "citation_options(alloc)?")]
    if "bibliography" in tree:
        bibliography = Local("bibliography")
        steps.append((bibliography, "Some(bibliography_options(alloc)?)"))
    new = Call("ListStyle::new", "alloc", "style", "citation", bibliography,
               tail=f".map_err(|_| Error::Memory){'' if is_english else '?'}")
    if not is_english:
        steps.append((Local("list"), new))
        new = Call("Ok", "list.with_english(false)")
    space = " " * indent
    lines = function("list_style", "ListStyle", steps, new, indent)
    about = "The style with its options for the citations and the bibliography of a document."
    head = [*comment(about, indent), f"{space}///", f"{space}/// # Errors",
            f"{space}/// [`Error::Memory`]: out of memory."]
    return [[*head, f"{space}pub {lines[0].lstrip()}", *lines[1:]], *blocks]
