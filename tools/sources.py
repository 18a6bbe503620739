"""Reads Rattle sources as far as the wrong bodies need it: where each function stands, and what of a source a check can depend on.

A text is read with its comments, strings and characters blanked, so that a brace or a keyword in one of them counts for nothing.
"""
import bisect
import functools
import re

LITERAL = re.compile(r"""//[^\n]*|(?<![\w'])b?r(?P<hashes>#+)".*?"(?P=hashes)|(?<![\w'])b?r?"(?:\\.|[^"\\])*"|(?<![\w'])b?'(?:\\[^']+|[^'\\\n])'""", re.S)
TOKEN = re.compile(r"\bfn\s+\w+|\b(?:impl|trait|mod)\b|[{}]")
CLAUSE = re.compile(r"\b(?:requires|ensures|ghost)\b")
TESTS = re.compile(r"#\[cfg\(test\)\]\s*mod (\w+);")
PAIRS = {"{": "}", "(": ")", "[": "]"}


class Function:
    """A function of a file: where its item and its body stand, a pattern of the name that the prover prints for it, and whether what stands
    above it can need its body, as that of a `const` function. A method is printed below the module of its type, which may be another file's."""

    def __init__(self, start, body, end, pattern, is_needed):
        self.start, self.body, self.end, self.pattern, self.is_needed = start, body, end, pattern, is_needed


def blanked(text):
    """The text with a blank for each character of a comment, a string or a character, and its line breaks kept."""
    return LITERAL.sub(lambda it: re.sub(r"[^\n]", " ", it[0]), text)


def plain(text):
    """The text without comments, and with one blank for each stretch of blanks that stands in no string."""
    text = LITERAL.sub(lambda it: " " if it[0].startswith("//") else it[0], text)
    kept, at = [], 0
    for found in LITERAL.finditer(text):
        kept += [re.sub(r"\s+", " ", text[at : found.start()]), found[0]]
        at = found.end()
    return "".join([*kept, re.sub(r"\s+", " ", text[at:])]).strip()


def plain_antt(text):
    """The text of definitions or lemmas without the lines that are comments."""
    return re.sub(r"^[ ]*--.*\n?", "", text, flags=re.M)


def group_end(text, at):
    """The place right after the bracket that closes the one at `at`."""
    opens, closes, depth = text[at], PAIRS[text[at]], 0
    for found in re.compile(f"[{re.escape(opens + closes)}]").finditer(text, at):
        depth += 1 if found[0] == opens else -1
        if not depth:
            return found.end()
    raise ValueError(f"a bracket {opens} is not closed")


def body_of(text, at):
    """Where the body of the function whose name ends at `at` begins, and where the item ends; of one without a body, the end twice."""
    segment = at
    while True:
        found = re.compile(r"[{;(\[]").search(text, at)
        if not found or found[0] == ";":
            end = found.end() if found else len(text)
            return end, end
        at = group_end(text, found.start())
        if found[0] != "{":
            continue
        if not CLAUSE.search(text, segment, found.start()):
            return found.start(), at
        segment = at


def words_of_type(text, parameters):
    """The words of a type as the prover joins them: `From<AllocFailed<T>>` is FromAllocFailed."""
    text = re.sub(r"'\w+", " ", text).replace("&", " Ref ")
    words = [it for it in re.findall(r"\w+(?!\w*::)", text) if it not in parameters and it not in ("mut", "dyn")]
    return "".join(it[:1].upper() + it[1:] for it in words)


def name_of_impl(header):
    """A pattern of the name that the prover gives an impl with these words before its brace."""
    parameters = []
    if header.startswith("<"):
        depth, at = 0, 0
        for at, it in enumerate(header):
            depth += (it == "<") - (it == ">" and header[at - 1] != "-")
            if not depth:
                break
        parameters = re.findall(r"(?:^|,)\s*(\w+)", header[1:at])
        header = header[at + 1 :]
    header = re.split(r"\bwhere\b", header)[0]
    given = re.search(r"\bas (\w+)\s*$", header)
    if given:
        return re.escape(given[1])
    trait, _, of = header.rpartition(" for ")
    own = re.search(r"(?:\w+::)*(\w+)", of)[1]
    return re.escape(own + words_of_type(trait, parameters)) + (r"\w*" if trait else "")


@functools.lru_cache(maxsize=None)
def functions_in(text, module):
    """The functions of a file, in order; `module` is the file's path in the crate, as `a::b`, and of a crate's root the empty text."""
    text, found = blanked(text), []
    read_items(text, 0, len(text), [it for it in module.split("::") if it], "", found)
    return found


def read_items(text, at, end, path, around_them, found):
    """Adds the functions between two places to `found`; `path` has the patterns of the modules or the type around them, and `around_them`
    is `impl` or `trait` in one of these."""
    while True:
        token = TOKEN.search(text, at, end)
        if not token:
            return
        at = token.end()
        if token[0] == "{":
            at = group_end(text, token.start())
        elif token[0].startswith("fn"):
            body, at = body_of(text, token.end())
            line = text[text.rfind("\n", 0, token.start()) + 1 : token.start()]
            name = "::".join([*path, token[0][2:].strip()])
            found.append(Function(token.start(), body, at, name, around_them == "trait" or "const" in line.split()))
        elif token[0] != "}":
            opens = re.compile(r"[{;]").search(text, at, end)
            header = text[at : opens.start()].strip() if opens else ""
            if opens and opens[0] == "{":
                after = group_end(text, opens.start())
                inside = [r"(?:\w+::)*" + name_of_impl(header)] if token[0] == "impl" else [*path, re.match(r"\w+", header)[0]]
                read_items(text, opens.end(), after - 1, inside, token[0].replace("mod", ""), found)
                at = after
            else:
                at = opens.end() if opens else end


def around(functions, start, end):
    """The function in whose item the text between two places stands, or None."""
    at = bisect.bisect_right([it.start for it in functions], start) - 1
    return functions[at] if at >= 0 and end <= functions[at].end else None


def module_of(path):
    """The module of a file: `src/a/b.rt` is a::b, and `src/lib.rt` the empty text."""
    inside = re.sub(r"^src/|\.rt$", "", path)
    return "" if inside in ("lib", "main") else re.sub(r"/mod$", "", inside).replace("/", "::")


# What a crate above can read of a source.

WORD = re.compile(r"\w+")
ATTRIBUTE = re.compile(r"#!?\[")
ITEM = re.compile(r"(?P<shown>pub(?!\s*\()\s+)?(?:pub\s*\([^)]*\)\s*)?(?:const\s+(?=fn\b))?(?P<kind>fn|struct|enum|union|trait|impl|mod|ghost\s+use|ghost|use|const|static|type)\b\s*(?P<name>\w*)")


class Item:
    """What a crate above can read of an item: its text, and the words that name it, one of each group. An item without words counts for every
    crate; an item with words only where the crate, or what it reads, has a word of each group."""

    def __init__(self, text, *words):
        self.text, self.words = text, [frozenset(it) for it in words if it]

    def is_read(self, words):
        return all(it & words for it in self.words)


def item_end(text, at, kind):
    """Where an item of this kind ends: after the first `;` or, but for what is a list of names or a value, the first braces."""
    while True:
        found = re.compile(r"[{;(\[]").search(text, at)
        if not found:
            return len(text)
        if found[0] == ";":
            return found.end()
        at = group_end(text, found.start())
        if found[0] == "{" and kind in ("struct", "enum", "union", "trait", "impl", "mod"):
            return at


def pieces_of(text, blank):
    """The items of a text that stand side by side: what ITEM finds of each, its kind, and where it begins (with its attributes), is named and ends."""
    start = at = 0
    while at < len(blank):
        attribute = ATTRIBUTE.match(blank, at)
        if attribute:
            at = group_end(blank, attribute.end() - 1)
        elif blank[at].isspace():
            at += 1
        else:
            found = ITEM.match(blank, at)
            if not found:
                raise ValueError(f"no item: {text[at : at + 60]!r}")
            kind = re.sub(r"\s+", " ", found["kind"])
            end = body_of(blank, found.end())[1] if kind == "fn" else item_end(blank, found.end(), kind)
            yield found, kind, start, end
            start = at = end


def contract(text, blank, found, end):
    """A function's text up to its body; all of it where a constant can need it."""
    return text[found.start() : end if "const" in found[0].split() else body_of(blank, found.end())[0]]


def items_of_impl(text, blank, opens, end):
    """The items of an impl: of a trait's all but the bodies, and else each method that can be called from another crate."""
    header, inside, shadow = text[:opens], text[opens + 1 : end - 1], blank[opens + 1 : end - 1]
    of = re.search(r"\bfor\b(.*)", header, re.S)
    type_words = WORD.findall(of[1] if of else re.sub(r"^impl\s*(<[^>]*>)?", "", header))
    whole = [header]
    for found, kind, start, stop in pieces_of(inside, shadow):
        text_of_it = contract(inside, shadow, found, stop) if kind == "fn" else inside[start:stop]
        if of:
            whole.append(text_of_it)
        elif kind != "fn" or found["shown"] or "const" in found[0].split():
            yield Item(plain(f"{header} {text_of_it}"), type_words, [found["name"]] if kind == "fn" else type_words)
    if of:
        yield Item(plain(" ".join(whole)), type_words)


def imports(text, blank):
    """What the lines `use` of a file bring in, but for the standard library: pairs of a name and the path that it stands for. An operator and
    `*` have no name, and count wherever the file does."""
    for found in re.finditer(r"\buse ([^;{]*)(\{[^;]*\})?;", blank):
        path, names = text[slice(*found.span(1))], text[slice(*found.span(2))].strip("{}") if found[2] else ""
        if not re.match(r"(?:Rattle\.)?(?:std|core)\b", path):
            for name in [it.strip() for it in names.split(",")]:
                yield (WORD.findall((name or path).split(" as ")[-1]) or [""])[-1], plain(f"use {path}{name}")


@functools.lru_cache(maxsize=None)
def stated(text):
    """What a crate above can read of a source, item by item: types, constants, traits, impls of traits, and the contracts of functions that
    can be called from there, each with what it names of the lines `use`. Left out are comments, the bodies of functions, functions that
    are private to the crate, the fields of a type that has a model of its own in the same file, and which modules there are."""
    blank, items = blanked(text), []
    modelled = set(re.findall(r"\bimpl(?:<[^>]*>)?\s+Model\s+for\s+(\w+)", blank))
    for found, kind, start, end in pieces_of(text, blank):
        name = [found["name"]]
        if kind == "fn":
            if found["shown"] or "const" in found[0].split():
                items.append(Item(plain(contract(text, blank, found, end)), name))
        elif kind == "impl":
            at = found.start()
            items += items_of_impl(text[at:], blank[at:], blank.index("{", at) - at, end - at)
        elif kind == "struct" and found["name"] in modelled:
            items.append(Item(plain(text[start : found.end()]), name))
        elif kind == "use" and found["shown"]:
            items += [Item(f"pub {path}", *([[name]] if name else [])) for name, path in imports(text[start:end], blank[start:end])]
        elif kind not in ("use", "ghost use", "mod") or blank[end - 1] == "}":
            items.append(Item(plain(text[start:end]), *([] if kind == "mod" else [name])))
    brought = list(imports(text, blank))
    for item in items:
        used = set(WORD.findall(item.text))
        item.text = " ".join([item.text, *sorted(path for name, path in brought if not name or name in used)])
    return items
