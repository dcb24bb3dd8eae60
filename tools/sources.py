"""What the commands of this folder read of the repository: its library crates, the functions of their sources and the must-fail edits.
Nothing here runs the prover."""

import re
from dataclasses import dataclass
from pathlib import Path

ROOT = Path(__file__).resolve().parent.parent

TOKEN = re.compile(
    r"""(?P<space>\s+|//[^\n]*)
      | (?P<text>b?"(?:[^"\\]|\\.)*"|b?'(?:[^'\\]|\\.)')
      | (?P<lifetime>'[A-Za-z_]\w*)
      | (?P<number>\d\w*)
      | (?P<word>[^\W\d]\w*)
      | (?P<sign>::|->|=>|==|!=|<=|>=|&&|\|\||\.\.|[-+*/%]=|.)""",
    re.VERBOSE | re.DOTALL,
)


@dataclass(frozen=True)
class Token:
    kind: str
    text: str
    start: int
    end: int


@dataclass(frozen=True)
class Function:
    crate: str
    file: Path
    # As another crate writes it, without the crate's name: `look`, `lists::write_pairs`, `Header::op`; of a trait's it is what a proof writes,
    # by the type, the trait and the function: `ValueFromHeld::from`.
    path: str
    # Whether other crates can call it. Of the traits' functions those of CALLED count.
    public: bool
    # Where its text begins, and where its body stands in it, braces included.
    start: int
    body: int
    end: int
    # Where the ghost members stand that say what it promises, before it in its `impl` of a trait.
    ghosts: int = -1
    # The type whose `impl` of a trait it stands in, if it does.
    of: str = ""

    @property
    def name(self):
        return self.path.split("::")[-1]

    @property
    def head(self):
        """Its signature, and its contract."""
        text = self.file.read_text()
        signature, _, contract = text[self.start : self.body].partition("ensures")
        return signature, text[self.ghosts : self.start] if self.ghosts >= 0 else contract


def tokens(text):
    """The tokens of a source, without spaces and comments."""
    return [
        Token(m.lastgroup, m.group(), m.start(), m.end()) for m in TOKEN.finditer(text) if m.lastgroup != "space"
    ]


def crates(root=ROOT):
    """The names of the crates, in the order of crates.txt, without the static libraries: these only export what a crate before them has."""
    lines = (root / "crates.txt").read_text().splitlines()
    names = [line.split(":")[0] for line in lines if line.strip() and not line.startswith("#")]
    return [name for name in names if not name.endswith(" staticlib")]


def library_crates(root=ROOT):
    """The crates that are libraries."""
    return [crate for crate in crates(root) if (root / "crates" / crate / "src" / "lib.rt").is_file()]


def closing(found, at):
    """The index of the brace that closes the one at `at`."""
    depth = 0
    for i in range(at, len(found)):
        if found[i].text == "{":
            depth += 1
        elif found[i].text == "}":
            depth -= 1
            if depth == 0:
                return i
    raise ValueError("a brace is not closed")


def body_of(found, at):
    """The index of the brace that opens the body of the function at `at`, behind its clauses, or of the `;` in its place in a trait."""
    i, inside = at, 0
    while found[i].text != "{" and (inside > 0 or found[i].text != ";"):
        inside += {"[": 1, "]": -1}.get(found[i].text, 0)
        i = closing(found, i + 1) + 1 if found[i].text in ("requires", "ensures", "ghost") else i + 1
    return i


def first_of(found, at):
    """The index of the first word of the function whose `fn` stands at `at`: `pub extern "C" fn` begins with `pub`."""
    while at > 0 and (found[at - 1].text in ("pub", "extern") or found[at - 1].kind == "text"):
        at -= 1
    return at


# The traits whose functions other crates call: conversions, and the iterator.
CALLED = ("From", "TryFrom", "Iterator")


def owner_of(found, at):
    """What stands before the names of the functions of the `impl` at `at`; the type, where it is of a trait; whether others call that one's
    functions; and where its brace opens."""
    opening = next(i for i in range(at, len(found)) if found[i].text == "{")
    head, depth = [], 0
    for token in found[at + 1 : opening]:
        # What stands in the first brackets, right behind `impl`, are its parameters.
        depth += {"<": 1, ">": -1}.get(token.text, 0) if not head else 0
        if token.kind == "word" and depth == 0:
            head.append(token.text)
    if "for" not in head:
        return head[0] + "::", "", False, opening
    trait = head[: head.index("for")]
    words = [head[head.index("for") + 1], *trait]
    return "".join(word[0].upper() + word[1:] for word in words) + "::", words[0], trait[0] in CALLED, opening


def functions_in(crate, file, text, module, public):
    """The functions of one source, whose module is public or not."""
    found, result, i = tokens(text), [], 0
    owner, owner_end, of, called, ghosts = "", 0, "", False, -1
    while i < len(found):
        if i >= owner_end:
            owner, of, called, ghosts = "", "", False, -1
        if found[i].text == "impl":
            owner, of, called, opening = owner_of(found, i)
            owner_end = closing(found, opening)
            ghosts = found[opening].end if called else -1
        elif found[i].text == "fn":
            first, body = found[first_of(found, i)], body_of(found, i)
            end = closing(found, body) if found[body].text == "{" else body
            path = module + owner + found[i + 1].text
            seen = public and (first.text == "pub" or called)
            result.append(Function(crate, file, path, seen, first.start, found[body].start, found[end].end, ghosts, of))
            i = end
        i += 1
    return result


def functions(crate, root=ROOT):
    """The functions of a library crate, the file of the root first."""
    source = root / "crates" / crate / "src"
    text = (source / "lib.rt").read_text()
    result = functions_in(crate, source / "lib.rt", text, "", True)
    for visible, name in re.findall(r"^(pub )?mod (\w+);", text, re.MULTILINE):
        file = source / f"{name}.rt"
        result += functions_in(crate, file, file.read_text(), f"{name}::", bool(visible))
    return result


def edits(crate, root=ROOT):
    """The names of the must-fail edits of a crate."""
    return sorted(file.stem for file in (root / "crates" / crate / "must-fail").glob("*.edit"))


def replaced(crate, edit, root=ROOT):
    """The file in which a must-fail edit replaces texts, and these texts."""
    text = (root / "crates" / crate / "must-fail" / f"{edit}.edit").read_text()
    file = "".join(re.findall(r"^file: (.+)$", text, re.MULTILINE)[:1])
    return root / "crates" / crate / file, re.findall(r"^old: (.+)$", text, re.MULTILINE)
