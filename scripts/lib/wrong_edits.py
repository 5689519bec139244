"""The edits of crates/NAME/wrong/, and the functions that they change, as scripts/wrong needs them."""
import collections
import os
import re

PARTS = ("src", "specs", "proofs")


def text_of(file):
    """Returns a file's text, or the empty text if there is no such file."""
    try:
        with open(file, encoding="utf-8", errors="replace") as it:
            return it.read()
    except OSError:
        return ""


Function = collections.namedtuple("Function", "name owner first last is_law")
FN = re.compile(r'( *)(?:pub(?:\([^)]*\))? )?(?:(?:const|unsafe|extern "C") )*fn (\w+)')
OWNER = re.compile(r"( *)(?:pub(?:\([^)]*\))? )?(?:unsafe )?(impl|trait|mod|fn)\b")


def functions_of(text):
    """Returns the functions with a body, by the layout that `rt fmt` writes: their owner is `impl ..`, `trait ..`, `mod ..`,
    `fn ..` or nothing, and the first and last line are those of the body."""
    lines, found = text.split("\n"), []
    for at, line in enumerate(lines):
        head = FN.match(line)
        if not head:
            continue
        indent, first, is_law = head[1], None, False
        for to in range(at, len(lines)):
            it = lines[to]
            if to > at and it[: len(indent) + 1].strip() == "":
                continue
            if to > at and not it.startswith(indent):
                break
            inner = it[len(indent) :]
            if first is not None:
                if inner.startswith("}"):
                    found.append(Function(head[2], owner_of(lines, at, indent), first, to, False))
                    break
            elif re.search(r"\{\s*\}$", inner):
                is_law = inner == "{}" or to == at
                found.append(Function(head[2], owner_of(lines, at, indent), to, to, is_law))
                break
            elif to == at and inner.endswith("}"):
                found.append(Function(head[2], owner_of(lines, at, indent), to, to, False))
                break
            elif inner == "{" or (to == at or inner.startswith((")", ">"))) and inner.endswith("{"):
                first = to
            elif inner.endswith(";") or not (to == at or inner.startswith((")", ">", "where"))):
                break
    return found


def owner_of(lines, at, indent):
    for above in range(at - 1, -1, -1):
        found = OWNER.match(lines[above])
        if found and len(found[1]) < len(indent):
            head = []
            for it in lines[above:at]:
                head.append(it.strip())
                if it.endswith("{"):
                    break
            return " ".join(head).rstrip("{ ")
    return None


def last_name(path):
    """Returns the last name of a path, without parameters."""
    return re.sub(r"<.*", "", path.strip().lstrip("&")).strip().split("::")[-1].strip()


def without_parameters(text):
    """Returns the text without the parameters in angle brackets at its front."""
    depth = 0
    for at, it in enumerate(text):
        depth += (it == "<") - (it == ">" and text[at - 1] != "-")
        if not depth:
            return text[at + 1 :] if text.startswith("<") else text
    return text


def pattern_of(crate, file, function):
    """Returns the pattern of the name under which a check reports the function, or None if that isn't known."""
    path = re.sub(r"\.rt$", "", file.removeprefix("src/")).split("/")
    path = [] if path in (["lib"], ["main"]) else path[:-1] if path[-1] == "mod" else path
    names = [crate, *path]
    owner = function.owner
    if owner:
        # (a method has the path of its type, whose file may be another)
        names = [rf"{crate}(?:::\w+)*"]
        kind, _, rest = re.sub(r"^(pub(\([^)]*\))? |unsafe )*", "", owner).partition(" ")
        if owner.startswith("impl<"):
            kind, rest = "impl", without_parameters(owner[len("impl") :])
        kind = re.match(r"\w+", kind)[0]
        rest = re.sub(r"\bwhere\b.*", "", rest)
        if kind == "fn":
            return None
        if kind == "impl" and re.search(r"\bfor\b", rest):
            trait, of = (last_name(it) for it in re.split(r"\bfor\b", rest, maxsplit=1))
            names.append(rf"{of}[^:]*{trait}[^:]*")
        else:
            names.append(rf"{last_name(rest.partition(':')[0] if kind == 'trait' else rest)}(?:\+[^:]*)?")
    return re.compile("::".join([*names, function.name]))


class Edit:
    """A file wrong/*.edit: pairs of an old text, which stands in its file exactly once, and the new one."""

    def __init__(self, crate, path):
        self.crate, self.path = crate, path
        self.name = f"{os.path.basename(crate.folder)}/wrong/{os.path.basename(path)}"
        self.pairs, self.why, file, old = [], None, "", None
        for line in text_of(path).split("\n"):
            if line.startswith("file: "):
                file = line.removeprefix("file: ").strip()
            elif line.startswith("old: "):
                old = line.removeprefix("old: ")
            elif line.startswith("new:") and file and old:
                self.pairs.append((file, old, line.removeprefix("new:").removeprefix(" ")))
                old = None
        texts = self.applied({})
        if not self.pairs:
            self.why = "it has no lines 'file:', 'old:' and 'new:'"
        elif texts is None:
            self.why = "an 'old:' text isn't exactly once in its file"
        elif all(text == text_of(f"{crate.folder}/{it}") for it, text in texts.items()):
            self.why = "it changes nothing"
        self.in_specs = any(not it.startswith("src/") for it, _, _ in self.pairs)
        self.pattern = None if self.why or self.in_specs else self.function()

    def applied(self, texts):
        """Returns these texts of the crate's files with the edit made, or None if it doesn't fit them."""
        texts = dict(texts)
        for file, old, new in self.pairs:
            text = texts.get(file) or text_of(f"{self.crate.folder}/{file}")
            if text.count(old) != 1 or os.path.normpath(file) != file or file.split("/")[0] not in PARTS:
                return None
            texts[file] = text.replace(old, new)
        return texts

    def function(self):
        """Returns the pattern of the one function whose body the edit changes, or None if it changes something else."""
        found, texts = set(), {}
        for file, old, new in self.pairs:
            text = texts.get(file) or text_of(f"{self.crate.folder}/{file}")
            line = text[: text.index(old)].count("\n")
            inside = [it for it in functions_of(text) if it.first <= line <= it.last]
            found.add(pattern_of(self.crate.name, file, max(inside, key=lambda it: it.first)) if inside else None)
            texts[file] = text.replace(old, new)
        return found.pop() if len(found) == 1 else None


def laws_of(crate):
    """Returns the patterns of the crate's laws: functions with an empty body."""
    found = []
    for at, _, names in os.walk(f"{crate.folder}/src"):
        for name in names:
            file = os.path.relpath(f"{at}/{name}", crate.folder)
            laws = [it for it in functions_of(text_of(f"{at}/{name}")) if it.is_law]
            found += [pattern_of(crate.name, file, it) for it in laws]
    return [it for it in found if it]


def edits_of(crate):
    folder = f"{crate.folder}/wrong"
    names = sorted(os.listdir(folder)) if os.path.isdir(folder) else []
    odd = [it for it in names if not it.endswith((".edit", ".md")) and it != "TRIED"]
    if odd:
        raise ValueError(f"crates/{os.path.basename(crate.folder)}/wrong/{odd[0]} is no .edit")
    return [Edit(crate, f"{folder}/{it}") for it in names if it.endswith(".edit")]
