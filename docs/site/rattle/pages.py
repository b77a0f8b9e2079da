"""The pages of the crates: one for each type, crate, file of definitions, and what a proof needs.

Each page is a stub of a few lines, which is written before the pages are read. Its directive makes the rest from the source.
"""
import os
import re
from itertools import zip_longest

from docutils import nodes
from docutils.statemachine import StringList
from sphinx import addnodes
from sphinx.util import logging
from sphinx.util.docutils import SphinxDirective

import reader
from .marked import clause_block, code_block, folded, markdown, signature_nodes, signature_text, source_link, xref

LOGGER = logging.getLogger(__name__)
LANGUAGES = {"rt": "rattle", "c": "c", "h": "c", "cpp": "cpp", "rs": "rust", "py": "python"}
# Where an example of a type stands that its own documentation doesn't have: the file and the item.
EXAMPLES = {
    "TreeIndex": ("crates/usage_book/src/main.rt", "fn book_of"),
    "TreeSet": ("crates/usage/src/guests.rt", "pub fn next_to_ask"),
    "SharedTreeIndex": ("crates/usage_threads/src/claims.rt", "pub fn claim_both"),
    "Text": ("crates/usage/src/stores.rt", "pub fn count_of"),
    "Bytes": ("crates/tree_tests/src/prefixes.rt", "fn store_bytes"),
    "Cursor": ("crates/usage/src/book.rt", "pub fn second_ask"),
    "Range": ("crates/usage/src/walks.rt", "pub fn ends_within"),
    "Iter": ("crates/usage/src/walks.rt", "pub fn highest_price"),
    "IntoIter": ("crates/tree_tests/src/callers.rt", "fn ends_by_value"),
    "Keys": ("crates/usage/src/stock.rt", "pub fn first_article"),
    "Values": ("crates/usage/src/stock.rt", "pub fn pieces"),
    "Proximity": ("crates/usage/src/walks.rt", "pub fn price_at_or_below"),
    "InsertError": ("crates/usage/src/stores.rt", "pub fn open"),
    "IndexKey": ("crates/usage/src/keys.rt", "impl IndexKey for Price"),
    "FromSortedError": ("crates/usage/src/stores.rt", "pub fn archive"),
    "Command": ("crates/usage_threads/src/calls.rt", "fn show_batch"),
    "Record": ("crates/tree_tests/src/histories.rt", "fn has_the_calls"),
    "Reply": ("crates/tree_tests/src/histories.rt", "static CALLS"),
    "tree_set.Range": ("crates/usage/src/examples.rt", "pub fn first_within"),
    "tree_set.FromSortedError": ("crates/usage/src/examples.rt", "pub fn sorted"),
    "Difference": ("crates/usage/src/guests.rt", "pub fn next_to_ask"),
    "State": ("crates/tree_tests/src/histories.rt", "fn keeps_each_call"),
    "Pass": ("crates/usage_threads/src/claims.rt", "fn claim<"),
    "Tally": ("crates/usage_threads/src/claims.rt", "pub fn claim_both"),
    "Blanks": ("crates/usage_threads/src/claims.rt", "pub fn claimed_by_two"),
    "Closed": ("crates/usage_threads/src/claims.rt", "pub fn claim_both"),
    "Unclosed": ("crates/shared_tests/src/closed.rt", "pub fn closed_with"),
    "Writer": ("crates/usage_threads/src/prices.rt", "fn quote_alone"),
    "Reader": ("crates/usage_threads/src/prices.rt", "pub fn price_of"),
    "Reading": ("crates/usage_threads/src/prices.rt", "pub fn price_of"),
    "Handle": ("crates/usage_threads/src/calls.rt", "fn lent"),
    "Guard": ("crates/usage_threads/src/calls.rt", "fn lent"),
    "ContainsEach": ("crates/usage/src/baskets.rt", "pub fn cost_of"),
    "TreeStore": ("crates/usage/src/durable.rt", "pub fn save"),
    "Files": ("crates/usage/src/durable.rt", "pub fn open_store"),
    "OpenError": ("crates/usage/src/durable.rt", "pub fn open_store"),
    "LogError": ("crates/usage/src/durable.rt", "pub fn save"),
}


class Page(SphinxDirective):
    """What the directives of the pages have in common."""

    required_arguments = 1

    @property
    def rattle(self):
        return self.env.get_domain("rattle")

    def note(self, kind, name, anchor, hover=""):
        """Keeps where an item stands."""
        self.rattle.note(kind, name, self.env.docname, anchor, hover)

    def parsed(self, text):
        """A text of Markdown as nodes."""
        found = nodes.Element()
        self.state.nested_parse(StringList(text.splitlines(), "source"), 0, found)
        return found.children

    def section(self, title, anchor, *children):
        """A section with a title."""
        return nodes.section("", nodes.title(title, title), *children, ids=[anchor], names=[])

    def shown(self, path, start):
        """An item of a file as a block of code, with a link to where it stands."""
        try:
            line, text = reader.shown(path, start)
        except (LookupError, OSError) as flaw:
            raise self.error(str(flaw))
        where = [nodes.Text("From "), nodes.literal("", path), nodes.Text(" "), source_link(reader.Place(path, line))]
        language = LANGUAGES.get(path.rpartition(".")[2], "text")
        return [code_block(text, language), nodes.paragraph("", "", *where, classes=["from"])]

    def fields(self, told):
        """A list of named texts of Markdown."""
        found = nodes.field_list()
        for name, text in told:
            found += nodes.field("", nodes.field_name("", name), nodes.field_body("", *self.parsed(text)))
        return found

    def declared(self, kind, name, item, signature, content, shown=""):
        """An item with its signature, an anchor, a link to its source, and what is said of it."""
        anchor = name
        line = addnodes.desc_signature("", "", nodes.inline("", "", *signature, classes=["signature"]), source_link(item), ids=[anchor], fullname=name, classes=["rattle"])
        line["_toc_name"], line["_toc_parts"] = shown or name.rpartition(".")[2], (name,)
        return addnodes.desc("", line, addnodes.desc_content("", *content), domain="rattle", objtype=kind, noindex=False, classes=["rattle"])

    def call(self, call, kind="call"):
        """A call: its signature, what it does, its errors, its cost, its examples and its clauses."""
        name = f"{call.owner}.{call.name}" if call.owner else call.name
        parts = reader.parts_of_call(call)
        if not parts["what"]:
            LOGGER.warning("%s has no documentation", name, location=f"{call.file}:{call.line}")
        self.note(kind, name, name, " ".join(parts["what"][:1]))
        if not parts["cost"]:
            LOGGER.warning("%s has no cost", name, location=f"{call.file}:{call.line}")
        told = [("Errors", told_errors(call, parts)), ("Cost", marked(parts["cost"], call))]
        content = [*self.parsed(marked(parts["what"], call)), *([self.fields(told)] if kind == "call" else [])]
        content += [code_block(it) for it in parts["examples"]]
        clauses = reader.clauses_of(call)
        content += folded("Clauses", call.file, clauses) if clauses else []
        return self.declared(kind, name, call, signature_nodes(signature_text(call.lines), call.file, call.name), content)

    def implemented(self, of, impl):
        """What a type is as one of another trait, with what its clauses say of that."""
        trait = re.sub(r"<.*>", "", impl.trait).rpartition("::")[2]
        name = f"{of.name}.{trait}"
        for function in impl.functions:
            self.note("call", f"{of.name}.{function}", f"impl.{name}")
        ghosts = "\n".join(f"{ghost} = {text}" for ghost, text in impl.ghosts)
        parts = reader.parts_of_doc(impl.doc)
        content = self.parsed(markdown(parts["all"], impl.file, of.name))
        content += folded("Clauses", impl.file, ghosts) if ghosts else []
        text = reader.CONTRACTS.short(reader.CONTRACTS.head_of(impl.lines))
        text = re.sub(r"^impl(<[^>]*>)? ", "impl ", re.sub(r" where .*", "", text))
        return self.declared("impl", f"impl.{name}", impl, signature_nodes(text, impl.file), content, trait)


def marked(paragraphs, call):
    """Paragraphs of the documentation of a call."""
    return markdown(paragraphs, call.file, call.owner)


def told_errors(call, parts):
    """What a page says of the errors of a call: its documentation's words, or that there are none."""
    if parts["errors"]:
        return marked(parts["errors"], call)
    result = reader.CONTRACTS.head_of(call.lines).rpartition(" -> ")[2]
    return f"As `{reader.CONTRACTS.short(result)}` says." if reader.can_fail(call) else "None."


def shape_of(item):
    """The declaration of a type as a caller sees it: its head, and its variants or its public fields."""
    if item.kind == "enum":
        return "\n".join(item.lines)
    head = reader.CONTRACTS.short(reader.CONTRACTS.head_of(item.lines))
    if item.kind == "trait":
        return f"trait {head.removeprefix('trait ')}"
    fields = re.findall(r"^((?:    ///.*\n)*    pub \w+: .*,)$", "\n".join(item.lines), re.M)
    return head + (" {\n" + "\n".join(fields) + "\n}" if fields else "")


def seen_of(item):
    """What contracts see of a type: its model and its invariant, or the laws of a trait."""
    if item.kind == "trait":
        return item.file, "\n".join(f"{name}: {text}" for name, text in reader.CONTRACTS.ghosts_of(item.lines))
    for impl in item.impls:
        if impl.trait == "Model":
            told = {name: text for name, text in impl.ghosts if name in ("Value", "view", "invariant")}
            return impl.file, "\n".join(f"{name} = {text}" for name, text in told.items())
    return item.file, ""


class TypePage(Page):
    """The page of a type or a trait."""

    def run(self):
        item = reader.types()[self.arguments[0]]
        return [*self.about(item), *self.groups(item), *self.traits(item), *self.types(item)]

    def about(self, item):
        """What a type is: its declaration, its documentation, an example, and what contracts see of it."""
        parts = reader.parts_of_doc(item.doc, False)
        if not parts["what"]:
            LOGGER.warning("%s has no documentation", item.name, location=f"{item.file}:{item.line}")
        for name in (item.name, *item.names):
            if reader.page_of(name) == item.name:
                self.note("type", name, item.name, " ".join(parts["what"][:1]))
        short = reader.short_names(item)
        content = [*self.parsed(markdown(parts["all"], item.file, item.name)), *self.example(item, parts["examples"])]
        path, seen = seen_of(item)
        content += folded("What contracts see", path, seen) if seen else []
        shape = self.declared("type", item.name, item, signature_nodes(shape_of(item), item.file, reader.CONTRACTS.name_of(item.lines)), [])
        where = self.parsed(f"Of {{rattle:crate}}`{item.crate}`" + (", with short names:" if short else "."))
        return [shape, *where, *([code_block("\n".join(short.values()))] if short else []), *content]

    def example(self, item, own):
        """The examples of a type: its own, or the item of a program that is named for it."""
        if own:
            return [code_block(it) for it in own]
        if item.name not in EXAMPLES:
            return []
        return self.shown(*EXAMPLES[item.name])

    def groups(self, item):
        """The calls of a type, by what they do."""
        for group in dict.fromkeys([*reader.GROUPS, *(it.group for it in item.calls)]):
            names = reader.GROUPS.get(group, "").split()
            found = [it for it in item.calls if it.group == group and (item.is_for_proofs or not it.is_for_proofs)]
            found.sort(key=lambda it: names.index(it.name) if it.name in names else len(names))
            if found:
                yield self.section(group, f"{item.name}-{nodes.make_id(group)}", *map(self.call, found))
        hidden = [f"{{rattle:call}}`{it.name} <{item.name}::{it.name}>`" for it in item.calls if it.is_for_proofs and not item.is_for_proofs]
        if hidden:
            yield self.section(reader.FOR_PROOFS, f"{item.name}-for-proofs", *self.parsed(", ".join(hidden)))

    def traits(self, item):
        """What a type is as one of other traits."""
        found = [self.implemented(item, it) for it in item.impls if it.trait != "Model"]
        return [self.section("Traits", f"{item.name}-traits", *found)] if found else []

    def types(self, item):
        """The types that have a trait."""
        found = [xref("source", f"{at.file}#L{at.line}", of) for of, at in reader.types_with(item)] if item.kind == "trait" else []
        commas = [nodes.Text(", ") for _ in found[1:]]
        told = nodes.paragraph("", "", *(it for pair in zip_longest(found, commas) for it in pair if it))
        return [self.section("Types that have it", f"{item.name}-types", told)] if found else []


class CratePage(Page):
    """The page of a crate: its documentation, its types and its functions."""

    def run(self):
        crate = self.arguments[0]
        self.note("crate", crate, crate)
        parts = reader.parts_of_doc(reader.doc_of_crate(crate), False)
        path = reader.path_of(crate, "src/lib.rt")
        found = [nodes.target("", "", ids=[crate]), *self.parsed(markdown(parts["all"], path))]
        found += [code_block(it) for it in parts["examples"]]
        types = [it for it in reader.types().values() if it.crate == crate and not it.is_for_proofs]
        if types:
            found.append(self.section("Types", f"{crate}-types", *self.parsed("\n".join(f"- {listed(it)}" for it in types))))
        functions = [it for it in reader.functions().values() if it.crate == crate and not it.is_for_proofs]
        if functions:
            found.append(self.section("Functions", f"{crate}-functions", *map(self.call, functions)))
        return found


def listed(item):
    """A line of a list of types: its name as a link, and the first sentence of its documentation."""
    return f"{{rattle:type}}`{titled(item)} <{item.name}>`: " + markdown([reader.CONTRACTS.sentence_of(item.doc)], item.file, item.name)


def titled(item):
    """The title of the page of a type."""
    return item.name.replace(".", "::")


def for_proofs(crate):
    """What a crate has for proofs: calls of its types and functions, and types."""
    types = [it for it in reader.types().values() if it.crate == crate]
    calls = [call for it in types if not it.is_for_proofs for call in it.calls if call.is_for_proofs]
    calls += [it for it in reader.functions().values() if it.crate == crate and it.is_for_proofs]
    return calls, [it for it in types if it.is_for_proofs]


class ProofPage(Page):
    """The page of what a crate has for proofs."""

    def run(self):
        calls, types = for_proofs(self.arguments[0])
        return [*map(self.call, calls), *self.parsed("\n".join(f"- {listed(it)}" for it in types))]


class LawsPage(Page):
    """The page of the laws, which proofs cite."""

    required_arguments = 0

    def run(self):
        return [self.call(it._replace(owner=f"{it.crate}.laws"), "law") for it in reader.laws()]


class WordsPage(Page):
    """The page of the words of a crate: each with its sentence and its definition."""

    def run(self):
        found = [it for it in reader.words().values() if it.crate == self.arguments[0]]
        for module in sorted({it.module for it in found}):
            words = sorted((it for it in found if it.module == module), key=lambda it: it.line)
            yield self.section(module, f"{self.arguments[0]}-{module}", *map(self.word, words))

    def word(self, word):
        """A word, its sentence and its definition."""
        name = f"{word.crate}.{word.module}.{word.name}"
        self.note("word", name, name, word.sentence or word.code.partition("\n")[0])
        content = [*self.parsed(word.sentence), clause_block(word.file, word.code)]
        return self.declared("word", name, word, [addnodes.desc_name("", word.name)], content)


def run_of(directive):
    """A directive's run that returns a list, whatever the page's run yields."""
    run = directive.run
    directive.run = lambda self: list(run(self))
    return directive


def stubs():
    """The name and the text of each page."""
    for name in EXAMPLES.keys() - reader.types().keys():
        LOGGER.warning("an example is for %s, which no crate exports", name)
    for item in reader.types().values():
        yield f"reference/{item.name}", f"# {titled(item)}\n\n```{{rattle:page}} {item.name}\n```\n"
    for crate in reader.CRATES:
        yield f"reference/{crate}", f"# Crate {crate}\n\n```{{rattle:crate}} {crate}\n```\n"
    proofs = [it for it in reader.CRATES if any(for_proofs(it))]
    for crate in proofs:
        yield f"proofs/{crate}", f"# For proofs: {crate}\n\n```{{rattle:proofs}} {crate}\n```\n"
    yield "proofs/laws", "# Laws\n\nA law is the contract of a function: call it in the code, and the proof has it.\n\n```{rattle:laws}\n```\n"
    crates = sorted({it.crate for it in reader.words().values()}, key=lambda it: list(reader.CONTRACTS.below_each()).index(it))
    for crate in crates:
        yield f"words/{crate}", f"# Words of {crate}\n\n```{{rattle:words}} {crate}\n```\n"
    yield "reference/index", index_of("Rattle", [page for crate in reader.CRATES for page in pages_of(crate)])
    hidden = [it.name for it in reader.types().values() if it.is_for_proofs]
    yield "proofs/index", index_of("For proofs", ["laws", *proofs, *(f"../reference/{it}" for it in hidden)])
    yield "words/index", index_of("Words of clauses", crates)


def pages_of(crate):
    """The pages of a crate: its own and those of its types."""
    return [crate, *(it.name for it in reader.types().values() if it.crate == crate and not it.is_for_proofs)]


def index_of(title, pages):
    """A page that lists others."""
    return f"# {title}\n\n```{{toctree}}\n:maxdepth: 1\n\n" + "\n".join(pages) + "\n```\n"


def write_stubs(app):
    """Writes each page whose text differs from what there is."""
    for name, text in stubs():
        path = os.path.join(app.srcdir, f"{name}.md")
        os.makedirs(os.path.dirname(path), exist_ok=True)
        if not os.path.exists(path) or reader.text_of(path) != text:
            with open(path, "w", encoding="utf-8") as page:
                page.write(text)


def setup(app):
    """Adds the directives and the pages."""
    for name, directive in (("page", TypePage), ("crate", CratePage), ("proofs", ProofPage), ("laws", LawsPage), ("words", WordsPage)):
        app.add_directive_to_domain("rattle", name, run_of(directive))
    app.connect("builder-inited", write_stubs)
