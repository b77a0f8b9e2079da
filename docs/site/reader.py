"""What a caller sees of the crates: the types, traits, functions and calls that they export, and the words of their clauses.

It stands on the parser of bench/contracts, and so relies on the layout that `rt fmt` gives. docs/site shows what it finds, and
bench/pages checks it. It reads text only.
"""
import functools
import os
import re
import sys
from collections import namedtuple
from importlib.machinery import SourceFileLoader
from importlib.util import module_from_spec, spec_from_loader

TOP = os.path.dirname(os.path.dirname(os.path.dirname(os.path.abspath(__file__))))
sys.path.insert(0, os.path.join(TOP, "bench"))
LOADER = SourceFileLoader("contracts", os.path.join(TOP, "bench", "contracts"))
CONTRACTS = module_from_spec(spec_from_loader("contracts", LOADER))
LOADER.exec_module(CONTRACTS)

# The crates that the site shows. A crate to come needs a line here.
CRATES = (
    "tree_index",
    "tree_set",
    "tree_texts",
    "tree_batches",
    "tree_state",
    "tree_shared",
    "tree_readers",
    "tree_lines",
    "tree_store",
    "store_codec",
    "store_log",
)
# The groups of calls on a page, in the order in which they stand there. A call of another name goes by what it takes.
GROUPS = {
    "Create": "new from_sorted open make",
    "Look up": "peek peek_entry peek_with read_sync get contains len is_empty depth spare tally history index",
    "Nearest": "first last at_or_below at_or_above locate",
    "Walk": "iter keys values range union intersection difference symmetric_difference get_back flip",
    "Write": "insert insert_sync upsert upsert_sync peek_or_insert extend try_extend replace_sync modify_sync apply",
    "Remove": "remove remove_sync remove_if_sync take take_sync pop_first pop_last retain_sync remove_range remove_range_sync clear",
    "Commit": "commit roll_back compact verify",
    "Convert": "try_clone push_to take_from as_str as_bytes into_string into_bytes into_parts into_pair",
    "Share": "close",
}
# The groups of other calls, by how they take `self`.
BY_SELF = {"&mut self": "Write", "&self": "Look up", "self": "Convert", "mut self": "Convert", "": "Create"}
FOR_PROOFS = "For proofs"

Call = namedtuple("Call", "name owner crate file line doc lines group is_for_proofs")
Impl = namedtuple("Impl", "trait file line doc lines ghosts functions")
Type = namedtuple("Type", "name names kind crate home file line doc lines calls impls is_for_proofs")
Place = namedtuple("Place", "file line")
Word = namedtuple("Word", "name crate module file line sentence code")


def text_of(path):
    """The text of a file of the repository."""
    with open(os.path.join(TOP, path), encoding="utf-8") as text:
        return text.read()


def exists(path):
    """Whether the repository has a file of this path."""
    return os.path.isfile(os.path.join(TOP, path))


@functools.lru_cache(None)
def lines_of(path):
    """The lines of a file of the repository."""
    return tuple(text_of(path).splitlines())


@functools.lru_cache(None)
def source():
    """The items of all crates."""
    return CONTRACTS.Source()


def path_of(crate, file):
    """The path of a file of a crate in the repository."""
    return os.path.join("crates", crate, file)


def line_of(path, lines, start=1):
    """The number of the line, from a line on, at which an item or a member of one begins."""
    found = lines_of(path)
    for indent in ("", "    "):
        block = tuple(indent + it if it else it for it in lines)
        for at in range(start - 1, len(found) - len(block) + 1):
            if found[at] == block[0] and found[at : at + len(block)] == block:
                return at + 1
    raise LookupError(f"{path} has no line {lines[0]!r}")


def documented(text):
    """The documentation of each item of a source file, as lists of lines."""
    docs, before = [], False
    for line in text.splitlines():
        found = re.match(r"\s*//[/!] ?(.*)", line)
        if found and not before:
            docs.append([])
        if found:
            docs[-1].append(found.group(1))
        before = bool(found)
    return docs


def doc_over(path, line):
    """The documentation over a line, with the indents of its examples."""
    found, at = lines_of(path), line - 1
    while at and found[at - 1].lstrip().startswith("#["):
        at -= 1
    last = at
    while at and found[at - 1].lstrip().startswith("///"):
        at -= 1
    return documented("\n".join(found[at:last]))[0] if at < last else []


def doc_of_crate(crate):
    """The documentation of a crate."""
    text = text_of(path_of(crate, "src/lib.rt"))
    return [it[3:].removeprefix(" ") for it in text.splitlines() if it.startswith("//!")]


def group_of(name, lines, is_for_proofs):
    """The group of a call on the page of its type."""
    if is_for_proofs:
        return FOR_PROOFS
    for group, names in GROUPS.items():
        if name in names.split():
            return group
    taken = re.match(r"(&mut self|&self|self|mut self|)", CONTRACTS.head_of(lines).partition("(")[2])
    return BY_SELF[taken.group()]


def is_inner(crate, name):
    """Whether an item or a call is exported for proofs and for other crates of the repository alone."""
    return name in CONTRACTS.INNER.get(crate, ())


def members(path, crate, owner, lines, form):
    """The functions within an item: its calls, if the form is `pub fn`, or those of a trait."""
    start = line_of(path, lines)
    for _, member in CONTRACTS.members_of(lines):
        if not member[0].startswith(form):
            continue
        line = line_of(path, member, start)
        name = CONTRACTS.name_of(member)
        inner = any(is_inner(it, f"{owner}::{name}") for it in CONTRACTS.INNER) or "arenas: " in CONTRACTS.head_of(member)
        yield Call(name, owner, crate, path, line, doc_over(path, line), member, group_of(name, member, inner), inner)


def impls_of(home, name, names):
    """The impls of a type or of one of its names: the trait, if there is one, the path and the lines of each."""
    form = re.compile(rf"(&('\w+ )?)?({'|'.join(names)})\b")
    for file, _, lines in source().items(home):
        if lines[0].startswith("impl"):
            trait, of = CONTRACTS.owner_of(CONTRACTS.head_of(lines))
            if form.match(of):
                yield trait, path_of(home, file), lines


def trait_impl(trait, path, lines):
    """An impl of a trait, with the names of the functions that it has."""
    line = line_of(path, lines)
    ghosts = [it for it in CONTRACTS.ghosts_of(lines) if it[0] not in CONTRACTS.PROOFS]
    functions = [CONTRACTS.name_of(it) for _, it in CONTRACTS.members_of(lines) if it[0].startswith("fn ")]
    return Impl(trait, path, line, doc_over(path, line), lines, ghosts, functions)


def aliased(home, lines):
    """The crate and the name of the type that a short name stands for, if the repository has it."""
    found = re.match(r"pub type .* = (\w+)", CONTRACTS.head_of(lines))
    if not found:
        return None
    try:
        return source().declared(home, found.group(1))[0], found.group(1)
    except SystemExit:
        pass
    for crate in CONTRACTS.below_each().get(home, ()):
        try:
            return source().declared(crate, found.group(1))[0], found.group(1)
        except SystemExit:
            continue
    return None


def root_of(crate, name):
    """The crate and the name of the type that a name leads to, by as many short names as that takes."""
    home, _, _, lines = source().declared(crate, name)
    further = aliased(home, lines)
    return root_of(*further) if further else (home, name)


@functools.lru_cache(None)
def exported():
    """The items that the crates export: for each its crate and name, the crate that exports it first and its names. A name that only
    another crate has for it stands with that crate."""
    found = {}
    for crate in CRATES:
        for name, home in CONTRACTS.exports_of(crate):
            first, names = found.setdefault(root_of(home, name), (crate, []))
            names.append(name if first == crate or name in names else f"{crate}::{name}")
    return {root: (crate, list(dict.fromkeys([*names, root[1]]))) for root, (crate, names) in found.items()}


@functools.lru_cache(None)
def meanings():
    """What each name means in a crate: the items that the crate exports, and those that are its own."""
    found = {crate: {name: root_of(home, name) for name, home in CONTRACTS.exports_of(crate)} for crate in CRATES}
    for home, root in exported():
        found.setdefault(home, {}).setdefault(root, (home, root))
    return found


def shown_name(names):
    """The plainest of the names of a type."""
    return next((it for it in names if not it.endswith(("Of", "Over")) and not it.startswith("Small")), names[0])


def kind_of(lines):
    """Whether an item is a `struct`, an `enum`, a `trait`, a `type` or a `fn`."""
    return re.match(r"pub (\w+)", lines[0]).group(1)


@functools.lru_cache(None)
def types():
    """The types and traits that a caller sees, by the name of the page of each. If two have a name, the second one's page has its crate
    before it."""
    found = {}
    for (home, root), (crate, names) in exported().items():
        _, file, _, lines = source().declared(home, root)
        path, kind = path_of(home, file), kind_of(lines)
        if kind == "fn":
            continue
        calls, impls = [], []
        if kind == "trait":
            calls += members(path, home, root, lines, "fn ")
        for trait, at, impl in impls_of(home, root, names) if kind != "trait" else ():
            if trait in ("Model", "Drop"):
                impls += [trait_impl(trait, at, impl)] if trait == "Model" else []
            elif trait:
                impls.append(trait_impl(trait, at, impl))
            else:
                calls += members(at, home, root, impl, "pub fn")
        plain, line = shown_name(names), line_of(path, lines)
        name = f"{crate}.{plain}" if plain in found else plain
        own = [it._replace(owner=name) for it in calls]
        inner = any(is_inner(at, root) or is_inner(at, plain) for at in (crate, home))
        found[name] = Type(name, names, kind, crate, home, path, line, doc_over(path, line), lines, own, impls, inner or is_judge(impls))
    return found


def is_judge(impls):
    """Whether a type is a judge of keys, which counts comparisons for a proof."""
    return any(it.trait.startswith("Judge<") for it in impls)


def short_names(item):
    """The short names of a type, each with its declaration."""
    found = {}
    for name in item.names:
        crate, _, plain = name.rpartition("::")
        if plain != CONTRACTS.name_of(item.lines):
            _, _, _, lines = source().declared(crate or item.crate, plain)
            found[name] = CONTRACTS.short(CONTRACTS.head_of(lines)).replace(plain, name, 1)
    return found


def types_with(item):
    """The types that have a trait, as its impls spell them, each with its place."""
    for crate in dict.fromkeys([*CONTRACTS.below_each()["tree_index"], *CRATES]):
        for file, _, lines in source().items(crate):
            if lines[0].startswith("impl"):
                trait, of = CONTRACTS.owner_of(CONTRACTS.head_of(lines))
                path, name = path_of(crate, file), re.match(r"\w*", trait).group()
                if name in item.names and page_of(name, path) == item.name:
                    yield CONTRACTS.short(of), Place(path, line_of(path, lines))


@functools.lru_cache(None)
def functions():
    """The functions that a caller sees, by name. If two have a name, that of the second one has its crate before it."""
    found = {}
    for (home, name), (crate, _) in exported().items():
        _, file, _, lines = source().declared(home, name)
        if kind_of(lines) == "fn":
            call = function_at(crate, path_of(home, file), lines, is_inner(crate, name))
            found[f"{crate}.{name}" if name in found else name] = call._replace(owner=crate if name in found else "")
    return found


def function_at(crate, path, lines, is_for_proofs):
    """A function that stands by itself."""
    line, name = line_of(path, lines), CONTRACTS.name_of(lines)
    return Call(name, "", crate, path, line, doc_over(path, line), lines, "Functions", is_for_proofs)


@functools.lru_cache(None)
def laws():
    """The laws of the crates, which a proof cites: functions whose contracts say what is known."""
    found = []
    for crate in CONTRACTS.below_each():
        if "src/laws.rt" in CONTRACTS.files_of(crate) and crate in ("tree_model", "tree_state", "tree_cursors"):
            path = path_of(crate, "src/laws.rt")
            items = [lines for file, _, lines in source().items(crate) if file == "src/laws.rt" and lines[0].startswith("pub fn")]
            found += [function_at(crate, path, lines, True) for lines in items]
    return found


def clauses_of(call):
    """The clauses of a call, as they stand in its file, without what indents all of them."""
    found = []
    for line in call.lines:
        if line in ("{", "{}") or found and line.endswith(" {") and line.startswith("{"):
            break
        if re.match(r"    (requires|ensures)\b", line) or found and line.strip() and not line.strip().startswith("//"):
            found.append(line[4:].rstrip(";"))
    return "\n".join(found)


def shown(path, start):
    """The line and the text of an item of a program, which begins so and ends where its indent ends."""
    lines = lines_of(path)
    at = next((at for at, line in enumerate(lines) if line.strip().startswith(start)), None)
    if at is None:
        raise LookupError(f"{path} has nothing that begins {start!r}")
    if start.startswith("///"):
        return at + 1, "\n".join(doc_lines(lines, at))
    indent = len(lines[at]) - len(lines[at].lstrip())
    end = end_by_indent if path.endswith(".py") else end_of_case if re.match(r"case |default:", start) else end_by_brace
    last = end(lines, at, indent)
    return at + 1, "\n".join(it[indent:] for it in lines[at : last + 1])


def doc_lines(lines, at):
    """The lines of an example in the documentation of Rust, from a line on, without those that its page hides."""
    for line in lines[at:]:
        text = line.strip().removeprefix("///").removeprefix(" ")
        if text.startswith("```"):
            return
        if not text.startswith("# "):
            yield text


def end_of_case(lines, at, indent):
    """The last line of a case of a `switch`, which ends before the next one or before the brace of all."""
    return next(it for it in range(at + 1, len(lines)) if re.match(rf" {{{indent}}}(case |default:|}})", lines[it])) - 1


def end_by_brace(lines, at, indent):
    """The last line of an item that a brace of the same indent closes, or its own if there is none."""
    if lines[at].rstrip().endswith(";"):
        return at
    return next((it for it in range(at + 1, len(lines)) if re.fullmatch(rf" {{{indent}}}}}[;)]*", lines[it].rstrip())), at)


def end_by_indent(lines, at, indent):
    """The last line of an item that ends before the next line that is indented no more."""
    for it in range(at + 1, len(lines)):
        if lines[it].strip() and len(lines[it]) - len(lines[it].lstrip()) <= indent:
            return max(found for found in range(at, it) if lines[found].strip())
    return len(lines) - 1


def calls():
    """Every call that a caller sees: those of types and traits, and functions."""
    return [call for it in types().values() for call in it.calls] + list(functions().values())


def public_calls(crate, homes):
    """The name and the documentation of each public call of what a crate exports from itself or from a crate that it stands for."""
    names = CONTRACTS.aimed_at(source(), [it for it in CONTRACTS.exports_of(crate) if it[1] in homes and it[0] not in CONTRACTS.FOR_CRATES.get(it[1], ())])
    public = {name for name, home in names if home in homes}
    for home in homes:
        for file, _, lines in source().items(home):
            path = path_of(home, file)
            trait, owner = CONTRACTS.owner_of(CONTRACTS.head_of(lines)) if lines[0].startswith("impl") else ("", "")
            if lines[0].startswith("pub fn") and CONTRACTS.name_of(lines) in public:
                yield f"{owner}::{CONTRACTS.name_of(lines)}", doc_over(path, line_of(path, lines))
            elif not trait and re.match(r"\w*", owner).group() in public:
                for call in members(path, crate, owner, lines, "pub fn"):
                    yield f"{owner}::{call.name}", call.doc


# How a documentation divides: the blocks of code in it are examples, and each sentence says what, an error or a cost.
ERROR = re.compile(r"`Err`|`(Duplicate|OutOfMemory|NotAscending|PassMissing|Refused)`|\brefused\b|ToolFault|Stops|allocation fails|cannot allocate|hands? .*\bback\b")
COST = re.compile(
    r"\b([Cc]omparisons?|[Cc]ompares|[Aa]llocat\w+|constant time|[Cc]osts?|[Dd]escen\w+|[Ss]earche[sd]|[Rr]eads every|[Rr]eserves"
    r"|memory|asked at most|Does what|[Cc]lones|[Dd]rops (each|the parts)|[Rr]uns in O|[Rr]eads the file|[Ss]yncs|[Ww]aits for)\b"
)
# What tells of an error alone, though it has a word of a cost.
FAILURE = re.compile(r"cannot allocate(?! (the|its|a) )|allocations? fails?|out of memory|lack of memory|failed allocation")


def sentences_of(paragraph):
    """The sentences of a paragraph."""
    return re.split(r"(?<=\.)\s+(?=[A-Z`(])", paragraph.strip())


def kind_of_sentence(sentence, before, can_fail):
    """What a sentence says: `errors`, `cost` or `what`. One that has no word of either goes with the sentence before it."""
    if "must " in sentence:
        return "what"
    if can_fail and ERROR.search(sentence):
        return "errors"
    return "cost" if tells_cost(sentence) else before


def tells_cost(sentence):
    """Whether a sentence says what a call costs, and not only that an allocation may fail."""
    return COST.search(FAILURE.sub("", sentence))


def parts_of_doc(doc, can_fail=True):
    """The parts of a documentation: all of its paragraphs, what an item does, its errors, its cost and its examples.

    Of a call that cannot fail no sentence tells an error.
    """
    found = {"all": [], "what": [], "errors": [], "cost": [], "examples": []}
    blocks = re.split(r"^```\w*\n(.*?)^```$", "\n".join(doc) + "\n", flags=re.M | re.S)
    found["examples"] = [it.rstrip("\n") for it in blocks[1::2]]
    for number, paragraph in enumerate(it for block in blocks[::2] for it in re.split(r"\n\s*\n", block) if it.strip()):
        told = {"what": [], "errors": [], "cost": []}
        kind = "what"
        found["all"].append(" ".join(paragraph.split()))
        for at, sentence in enumerate(sentences_of(" ".join(paragraph.split()))):
            kind = kind_of_sentence(sentence, kind, can_fail) if number or at else "what"
            told[kind].append(sentence)
        for kind, sentences in told.items():
            found[kind] += [" ".join(sentences)] if sentences else []
    return found


def can_fail(call):
    """Whether a call returns a `Result`."""
    return "Result<" in CONTRACTS.head_of(call.lines).rpartition(" -> ")[2]


# The cost of a call whose documentation has none: what allocates is passed an allocator or holds one, and returns a failure.
NO_ALLOCATION = "Allocates nothing: no failure of an allocation is returned."


def parts_of_call(call):
    """The parts of the documentation of a call. Its errors and its cost may be told by a sentence that says something else too."""
    parts = parts_of_doc(call.doc, can_fail(call))
    told = [it for text in parts["what"] for it in sentences_of(text)]
    parts["errors"] = parts["errors"] or [it for it in told if can_fail(call) and ERROR.search(it)]
    told += [it for text in parts["errors"] for it in sentences_of(text)]
    parts["cost"] = parts["cost"] or [it for it in told if tells_cost(it)] or ([] if can_fail(call) else [NO_ALLOCATION])
    return parts


# The words of clauses.
USED = re.compile(r"use Rattle\.([\w.]+)\.\{([^}]*)\}")
DEFINED = re.compile(r"^(\s*)(?:abbrev )?pub (?:record |data |function )?([^\s:({]+)")
NAME = re.compile(r"[^\W\d_][\w'-]*")


@functools.lru_cache(None)
def imports_of(path):
    """The words that a file imports: the place of each, as the parts of a path, and its name there."""
    found = {}
    for place, names in USED.findall(text_of(path)):
        for name in names.split(","):
            name, _, other = name.strip().partition(" as ")
            found[other or name] = (place, name)
    return found


def comment_over(lines, at):
    """The comment over a line of a file of definitions, as one text."""
    over = at
    while over and lines[over - 1].lstrip().startswith("-- "):
        over -= 1
    return " ".join(it.strip()[3:] for it in lines[over:at])


@functools.lru_cache(None)
def definitions_of(path):
    """The words that a file of definitions has: the line, the sentence over it and the code of each. A record's fields are its code."""
    found, lines, within = {}, lines_of(path), None
    for at, line in enumerate(lines):
        name = DEFINED.match(line)
        indent = len(line) - len(line.lstrip())
        if not line.strip() or within is not None and indent > within:
            continue
        within = indent if name and "pub record " in line else None
        if name and name.group(2) not in found:
            ends = [it for it in range(at, len(lines)) if not lines[it].strip()] or [len(lines)]
            code = [it[indent:] for it in lines[at : ends[0]]]
            found[name.group(2)] = (at + 1, comment_over(lines, at), "\n".join(code))
    return found


@functools.lru_cache(None)
def sentences_of_definitions():
    """The meaning of each word that a table of docs/DEFINITIONS.md has, by the word."""
    found = {}
    for row in re.findall(r"^\| (`[^|]*) \| ([^|]*) \|$", text_of("docs/DEFINITIONS.md"), re.M):
        for word in re.findall(r"`([^\s`]+)[^`]*`", row[0]):
            found.setdefault(word, row[1])
    return found


@functools.lru_cache(None)
def forms():
    """What the forms of clauses mean that the standard library has, by the first word of each."""
    _, _, table = text_of("docs/CONTRACTS.md").partition("| Form | Meaning |\n")
    rows = re.findall(r"^\| (`[^|]*) \| ([^|]*) \|$", table.partition("\n\n")[0], re.M)
    return {word: meaning for forms, meaning in rows for word in re.findall(r"`([^\s`]+)[^`]*`", forms)}


def word_at(path, name):
    """The word that a name in a file means, if a file of definitions of the repository has it."""
    place, known = imports_of(path).get(name, ("", name))
    crate, _, module = place.partition(".specs.")
    file = os.path.join("crates", crate, "specs", module.replace(".", os.sep) + ".antt") if module else path
    if not exists(file) or not file.endswith(".antt"):
        return None
    line, sentence, code = definitions_of(file).get(known, (0, "", ""))
    if not line:
        return None
    told = sentences_of_definitions().get(known, sentence) if crate_of(file) in ("tree_model", "tree_index") else sentence
    return Word(known, crate_of(file), os.path.basename(file)[:-5], file, line, told, code)


def type_at(path, name):
    """The name of the page of a type that a name in a file means: of the type itself, or of one of its variants."""
    place, known = imports_of(path).get(name, ("", name))
    found = re.search(r"^(\w+)\.specs\.declared\..*?(\w+)(\.TheVariants)?$", place)
    return page_in(found.group(1), found.group(2) if found.group(3) else known) if found else None


@functools.lru_cache(None)
def pages():
    """The name of the page of each name of a type, which is that of the first type of this name."""
    found = {}
    for item in types().values():
        for name in (item.name, *item.names):
            found.setdefault(name, item.name)
    return found


@functools.lru_cache(None)
def pages_of_roots():
    """The name of the page of each type, by its crate and its name there."""
    return {(it.home, CONTRACTS.name_of(it.lines)): it.name for it in types().values()}


def page_in(crate, name):
    """The name of the page of the type that a name means in a crate, or else of the first type of this name."""
    root = meanings().get(crate, {}).get(name)
    return pages_of_roots().get(root) if root else pages().get(name)


@functools.lru_cache(None)
def used_in(path):
    """The crate that each name comes from which the code of a file uses."""
    text = re.sub(r"//.*", "", text_of(path))
    uses = re.findall(r"^use (\w+)::([^;]*);", text, re.M)
    return {name: crate for crate, names in uses for name in re.findall(r"\w+", names)}


def page_of(name, path=""):
    """The name of the page of a type by any of its names, as a file uses it if one is given. Of two types with a name it is that of the
    first, unless the crate stands before it."""
    crate, _, plain = name.rpartition("::")
    if crate:
        return page_in(crate, plain) if crate in meanings() else None
    if not path:
        return pages().get(name)
    crate = used_in(path).get(name, crate_of(path))
    crate = crate_of(path) if crate in ("crate", "self", "super") else crate
    return page_in(crate, name) if crate in CONTRACTS.below_each() else None


def crate_of(path):
    """The crate that a file is of."""
    return path.split(os.sep)[1]


def words_in(path, text):
    """The words of definitions that a text of a file has, each once."""
    found = {}
    for name in NAME.findall(text):
        word = word_at(path, name)
        if word:
            found[(word.file, word.name)] = word
    return found


@functools.lru_cache(None)
def words():
    """The words that clauses of public calls and types have, and those that these are made of."""
    found, ahead = {}, []
    for item in [*calls(), *laws()]:
        ahead += words_in(item.file, "\n".join(CONTRACTS.clauses_of(item.lines))).items()
    for item in (it for kind in types().values() for it in kind.impls):
        ahead += words_in(item.file, " ".join(text for _, text in item.ghosts)).items()
    for item in (it for it in types().values() if it.kind == "trait"):
        ahead += words_in(item.file, "\n".join(it for it in item.lines if it.strip().startswith("ghost "))).items()
    while ahead:
        key, word = ahead.pop()
        if key not in found:
            found[key] = word
            ahead += words_in(word.file, word.code).items()
    return found


if __name__ == "__main__":
    for call in calls():
        parts = parts_of_call(call)
        print(f"{call.owner}::{call.name}: {call.group}: errors {parts['errors']}: cost {parts['cost']}")
