"""What the tools share: the repository, its files, and `use` lines."""
import re
import sys
from pathlib import Path

sys.dont_write_bytecode = True
TOP = Path(__file__).resolve().parent.parent


# ---- the repository

def listed(text):
    """The crates of a crates.txt in its order, each with the dependencies that it lists."""
    found = {}
    for line in text.splitlines():
        name, colon, rest = line.split("#")[0].partition(":")
        if colon:
            # a static library has that word behind its name
            found[name.split()[0]] = rest.split()
    return found


def crates():
    return listed(read(TOP / "crates.txt"))


def files(name, *ends):
    """The files of a crate's src/, specs/ and proofs/ that end so."""
    for part in ("src", "specs", "proofs"):
        for path in sorted((TOP / "crates" / name / part).rglob("*")):
            if path.name.endswith(ends):
                yield path


def read(path):
    return Path(path).read_text(encoding="utf-8")


def shown(path):
    """A path as it is printed: from the repository's top, if it is in there."""
    path = Path(path)
    return str(path.relative_to(TOP)) if TOP in path.parents else str(path)


def named_crate(name):
    """A crate that is asked for by name; stops the tool if there is none."""
    if name not in crates():
        sys.exit("%s is not listed in crates.txt" % name)
    return name


# ---- `use` lines

LETTER = r"[\w'₀-₉-]"
LINE = re.compile(r"^(?P<indent> *)(?P<word>(?:ghost )?use) (?P<path>[^\s{;]+)(?P<rest>[^;\n]*?)(?P<end>;?)$", re.M)


def bare(text):
    """Without comments and without `use` lines, those of several lines too."""
    return re.sub(r"--.*|//.*|^ *(?:pub |ghost )?use [\w:]+\{\n(?:[^}]*\n)? *\};$|^ *(?:pub |ghost )?use [^\n]*$", "", text, flags=re.M)


def occurs(name, text):
    """Whether the text has the name; of `◌≡◌` its parts."""
    if name in ("◌>>=◌", "◌>>◌") and re.search(r"\bdo\b", text):
        return True
    if not re.search(r"\w", name):
        # operators and `[]`: their signs stand beside anything
        return all(part in text for part in name.split("◌"))
    return all(re.search(r"(?<!%s)%s(?!%s)" % (LETTER, re.escape(part), LETTER), text) for part in name.split("◌") if part)


def items(rest):
    inner = re.fullmatch(r"\{(.*)\}", rest.strip())
    return [item.strip() for item in inner.group(1).split(",") if item.strip()] if inner else None


def kept(match, text, found):
    """The line as it should be; what is taken out goes to `found`."""
    names = items(match["rest"]) if match["path"].endswith((".", "::")) else None
    if names is not None:
        keep = [i for i in names if i.startswith("syntax ") or i in ("*", "..", "self") or occurs(i.split(" as ")[-1].strip(), text)]
        found += [i for i in names if i not in keep]
        if not keep:
            return None
        # as rt fmt writes one name of code
        short = len(keep) == 1 < len(names) and match["path"].endswith("::")
        return "%s%s %s%s%s" % (match["indent"], match["word"], match["path"], keep[0] if short else "{%s}" % ", ".join(keep), match["end"])
    alias = re.fullmatch(r" as (\S+)", match["rest"])
    last = alias.group(1) if alias else re.split(r"::|\.", match["path"])[-1]
    if match["rest"].strip() and not alias or last == "*" or occurs(last, text):
        return match.group(0)
    found.append(last)
    return None


def cleaned(source):
    """The text with no unused name, and the names that went."""
    text, found, lines = bare(source), [], []
    for line in source.split("\n"):
        match = LINE.fullmatch(line)
        new = kept(match, text, found) if match else line
        if new is not None:
            lines.append(new)
    return "\n".join(lines), found
