"""Reads source files: their functions, and the items outside of them, as the script mutants needs them.

It knows no more of the language than comments, strings, brackets, and the heads of functions, impls, traits and modules.
"""

import dataclasses
import re

# Comments, strings and characters.
QUIET = re.compile(
    r"""//[^\n]*|/\*.*?\*/|b?r(#*)".*?"\1|b?"(?:[^"\\]|\\.)*"|b?'(?:\\.[^'\n]*|[^\\'\n])'""", re.S
)
MARK = re.compile(r"[{}()\[\];]")
BLOCK = re.compile(r"(?:^|[^\w>])(?P<kind>fn|impl|trait|mod)\b\s*(?P<name>\w*)(?P<rest>.*)$", re.S)
# A brace after these words opens a clause of a contract, and no body.
CLAUSE = re.compile(r"\b(?:(?:requires|ensures)\s*\*?(?:\s+\w+)?|ghost(?:\s+\w+\s*:)?)\s*$")
CYCLE = re.compile(r"#\[cycle\((\w+)\)\]")
TYPE = re.compile(r"\b(?:struct|enum|union)\s+(\w+)")


def tokens(text):
    """Returns the words and strings of a text, without comments and layout."""
    found, at = [], 0
    for quiet in QUIET.finditer(text):
        found += text[at : quiet.start()].split()
        found += [] if quiet[0].startswith("/") else [quiet[0]]
        at = quiet.end()
    return found + text[at:].split()


@dataclasses.dataclass(frozen=True)
class Function:
    module: str  # as `jiter_scan::memory::`
    owners: tuple  # patterns of what the prover may call its impl, the likeliest first, as `LinePosition::`
    name: str
    cycle: str  # empty outside of cycles
    head: tuple  # the tokens of attributes, signature and contract
    body: tuple  # the tokens of the body
    at: tuple  # where it and its body begin, and where it ends

    @property
    def label(self):
        return f"{self.module}{self.owners[0]}{self.name}"

    @property
    def proof(self):
        """The name of its proof, which the functions of a cycle share."""
        return f"{self.module}+{self.cycle}" if self.cycle else self.label

    def names_among(self, told):
        """Returns which of the prover's names are this function's, its closures', its cycle's and its impl's laws'."""
        for owner in self.owners:
            own, cycle = f"{owner}{self.name}", self.cycle or self.name
            pattern = rf"{self.module}({own}(\+\S+)?|fn::{own}::\S+|({owner})?\+{cycle}|{owner[:-2]})"
            if found := [it for it in told if re.fullmatch(pattern, it)]:
                return found
        return []


@dataclasses.dataclass(frozen=True)
class Item:
    """An item outside of functions: a constant, a type, a `use`, a ghost definition."""

    module: str
    head: str
    tokens: tuple

    @property
    def kind(self):
        """Returns `use`, `import` for a `ghost use`, `ghost`, or `item`."""
        found = re.match(r"(?:pub\S*\s+)?(use)\b|ghost\s+(use\b)?", self.head)
        return "item" if not found else found[1] or ("import" if found[2] else "ghost")


def imported(text):
    """Yields the names that a `ghost use` brings, each with the path that it stands for."""
    path, _, names = text.removesuffix(";").partition("{")
    for it in (names.rstrip("} ") or path.rpartition(" ")[2]).split(","):
        one, _, other = it.strip().partition(" as ")
        yield (other or one).strip(), f"{path} {one}".strip()


def owners_of_impl(head):
    """Returns patterns of what the prover may call an impl, as `JsonErrorFromFault::` for `impl From<Fault> for JsonError`."""
    without_parameters = re.sub(r"^\s*<[^<>]*(<[^<>]*>[^<>]*)*>", "", head)
    parts = re.split(r"\sfor\s", re.split(r"\swhere\s", without_parameters)[0])
    *trait, (kind, _) = [re.search(r"(\w+)\s*(<.*>)?\s*$", it, re.S).groups() for it in parts]
    # (`U8Integer::` for `impl Integer for u8`)
    kind = kind[:1].upper() + kind[1:]
    if not trait:
        return (f"{kind}::",)
    name, arguments = trait[0]
    words = [it for it in re.findall(r"'?\w+|[&\[]", arguments or "") if it[0] != "'"]
    given = "".join({"&": "Ref", "[": "Slice"}.get(it, it[:1].upper() + it[1:]) for it in words)
    # (`MembersOfWholeMembers::` for `impl Members for MembersOf<O, O::Whole>`)
    return (f"{kind}{name}{given}::", rf"{kind}{name}\w*::", rf"{kind}\w+{name}\w*::", f"{kind}::")


class Source:
    """The functions of a source file, and its items outside of them."""

    def __init__(self, text, module):
        self.text, self.functions, self.items = text, [], []
        self.quiet = QUIET.sub(lambda it: re.sub(r"\S", " ", it[0]), text)
        self.ends = self.find_ends()
        # each block that is open: what a `mod` adds to the module, and the owners of an impl or a trait
        self.blocks = []
        self.traits = set()
        self.scan(module)
        self.imported = [one for it in self.items if it.kind == "import" for one in imported(" ".join(it.tokens))]

    def find_ends(self):
        """Returns where the block of each opening brace ends."""
        ends, opened = {}, []
        for mark in re.finditer(r"[{}]", self.quiet):
            if mark[0] == "{":
                opened.append(mark.start())
            elif opened:
                ends[opened.pop()] = mark.end()
        return ends

    def scan(self, module):
        begin = at = nesting = 0
        while mark := MARK.search(self.quiet, at):
            at, head = mark.end(), self.quiet[begin : mark.start()]
            end = self.ends.get(mark.start(), at)
            block = BLOCK.search(head) if mark[0] == "{" else None
            inside = module + "".join(it[0] for it in self.blocks)
            if mark[0] in "([])":
                nesting += 1 if mark[0] in "([" else -1
            elif mark[0] == "}":
                self.blocks, begin = self.blocks[:-1], at
            elif mark[0] == "{" and (nesting or CLAUSE.search(head)):
                at = end
            elif mark[0] == "{" and block and block["kind"] == "fn":
                self.functions.append(self.function(inside, block["name"], begin, mark.start(), end))
                begin = at = end
            elif mark[0] == "{" and block:
                self.open_block(block)
                begin = at
            else:
                at = end
                if not nesting and (mark[0] == ";" or TYPE.search(head)):
                    self.items.append(Item(inside, head.strip(), tuple(tokens(self.text[begin:at]))))
                    begin = at

    def function(self, module, name, begin, body, end):
        owners = next((it[1] for it in reversed(self.blocks) if it[1]), ("",))
        cycle = CYCLE.search(self.quiet, begin, body)
        head, inside = tokens(self.text[begin:body]), tokens(self.text[body:end])
        return Function(module, owners, name, cycle[1] if cycle else "", tuple(head), tuple(inside), (begin, body, end))

    def open_block(self, block):
        name, is_trait = f"{block['name']}::", block["kind"] == "trait"
        self.traits |= {name} if is_trait else set()
        owners = (name,) if is_trait else owners_of_impl(block["name"] + block["rest"])
        self.blocks = [*self.blocks, (name, None) if block["kind"] == "mod" else ("", owners)]

    def is_of_trait(self, function):
        """Returns whether a function is of a trait, so that it can be called without its name, as by `?` or `==`."""
        return len(function.owners) > 1 or function.owners[0] in self.traits

    def contracts(self, public=False):
        """Yields the name of each function that must be called by name, with its label, its head and what that imports."""
        for it in self.functions:
            is_public = any(one == "pub" and other != "(" for one, other in zip(it.head, it.head[1:]))
            if not self.is_of_trait(it) and (is_public or not public):
                yield it.name, (it.label, it.head, self.imports([it.head]))

    def interface(self):
        """Returns what else other crates see: heads of traits' functions, all other items but imports, and what these import."""
        heads = [it.head for it in self.functions if self.is_of_trait(it)]
        items = [it.tokens for it in self.items if it.kind not in ("use", "import")]
        return heads, items, self.imports(heads + items)

    def imports(self, told):
        """Returns what the names in these lists of tokens stand for, where a `ghost use` brings them."""
        words = set(re.split(r"[\s(){}\[\],;.:|&]+", " ".join(word for it in told for word in it)))
        return sorted(it for it in self.imported if words & {it[0], *it[0].split("◌")} - {""})
