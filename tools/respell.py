#!/usr/bin/env python3
"""Brings the names of this repository's own definitions and lemmas to snake case (types: camel case).

Run once at the top of the repository, right after the toolchain's port.py. It reads what the crates' specs/ and proofs/ declare, and
renames those names in .antt files, in .rt files, in must-fail edits and, between backticks, in the pages. Names that a file imports
from the toolchain's library keep their spelling there. Strings keep theirs. With --check it only prints the map."""
import collections
import glob
import os
import re
import sys

STOP = r"\s(){};.,`\"«»"
TOKEN = re.compile(r'"(?:[^"\\]|\\.)*"|[^' + STOP + r"]+")
DECLARED = re.compile(r"^\s*(?:abbrev |unfoldable |pub )*(?:record |data )?(?:pub )?([^" + STOP + r"]+)(?: [^=]*)? : ")


def respelled(name):
    """The new spelling of a declared name."""
    for old, new in (("leℤ", "le_ℤ"), ("leZ", "le_z"), ("leE", "le_e"), ("recordsTy", "records_ty")):
        name = name.replace(old, new)
    if name.startswith(("→", "+")):
        return name[0] + respelled(name[1:])
    if name[:1].isupper():
        head, *rest = name.split("-")
        return head + "".join(part[:1].upper() + part[1:] for part in rest)
    return re.sub(r"(?<=[\w'ℤ])-(?=[\w'ℤ])", "_", name)


def antt_files(crate):
    return glob.glob(crate + "/specs/**/*.antt", recursive=True) + glob.glob(crate + "/proofs/**/*.antt", recursive=True)


def declared(crates):
    names = set()
    for crate in crates:
        for path in antt_files(crate):
            for line in open(path, encoding="utf-8"):
                if line.lstrip().startswith(("--", "use ", "pub use ")):
                    continue
                found = DECLARED.match(line)
                if found:
                    names.add(found.group(1))
        # a step of a proof is named after the function that is called
        for path in glob.glob(crate + "/src/**/*.rt", recursive=True):
            for name in re.findall(r"\bfn (\w+)", open(path, encoding="utf-8").read()):
                if "_" in name:
                    names.add(name.replace("_", "-"))
    return names


# Names that Rattle makes for proofs follow its spelling: the check names them.
MADE = re.compile(r"(Need|After|Then\d?|Else\d?|Goes|Loop|At|In|Exit|Start|Post|Known|Lts|calls|code|enum|call|loop|told|entry|copy|blank)-|.*(-reads|-def|-thm|-arg\d?|\D\d+)$|.*[:#·]")


def local(crates, taken):
    """Names with a dash that no declaration has, as those of variables."""
    names = set()
    for crate in crates:
        for path in antt_files(crate):
            text = re.sub(r"--.*", "", open(path, encoding="utf-8").read())
            for word in TOKEN.findall(text):
                if re.search(r"[\w']-[\w']", word) and word not in taken and not word.startswith('"') and not MADE.match(word):
                    names.add(word)
    return names


def imported(text, own):
    """The names that the file takes from the toolchain's library."""
    names = set()
    for path, braces in re.findall(r"^(?:pub |ghost )*use ([\w.◌·]+)\.\{([^}]*)\}", text, re.M):
        parts = path.split(".")
        if not (parts[0] == "Rattle" and len(parts) > 1 and parts[1] in own):
            names.update(n.strip().split(" ")[0] for n in braces.split(","))
    return names


def turned(text, names, keep):
    def one(found):
        word = found.group(0)
        if word.startswith('"') or word in keep:
            return word
        return names.get(word, word)
    return TOKEN.sub(one, text)


def in_backticks(text, names):
    return re.sub(r"`[^`\n]+`", lambda m: turned(m.group(0), names, set()), text)


def main():
    crates = sorted(glob.glob("crates/*"))
    own = {os.path.basename(c) for c in crates}
    all_names = declared(crates)
    taken = set(all_names)
    for crate in crates:
        for path in antt_files(crate) + glob.glob(crate + "/src/**/*.rt", recursive=True):
            taken |= imported(open(path, encoding="utf-8").read(), own)
    all_names |= local(crates, taken)
    names = {n: respelled(n) for n in all_names if respelled(n) != n}
    back = collections.defaultdict(set)
    for n in all_names:
        back[respelled(n)].add(n)
    for new, olds in sorted(back.items()):
        if len(olds) > 1:
            print("falls together:", new, sorted(olds), file=sys.stderr)
    if "--check" in sys.argv:
        for old, new in sorted(names.items()):
            print(old, new)
        return
    for crate in crates:
        for path in antt_files(crate) + glob.glob(crate + "/src/**/*.rt", recursive=True):
            text = open(path, encoding="utf-8").read()
            new = turned(text, names, imported(text, own))
            if new != text:
                open(path, "w", encoding="utf-8").write(new)
        for path in glob.glob(crate + "/must-fail/*.edit"):
            text = open(path, encoding="utf-8").read()
            new = turned(text, names, set())
            if new != text:
                open(path, "w", encoding="utf-8").write(new)
    for path in glob.glob("*.md") + glob.glob("docs/*.md") + glob.glob("*/README.md"):
        text = open(path, encoding="utf-8").read()
        new = in_backticks(text, names)
        if new != text:
            open(path, "w", encoding="utf-8").write(new)


main()
