"""Lists the words of specs/ that contracts of exported calls cite and that docs/DEFINITIONS.md doesn't name.

    python3 docs/definitions.py [--all]      # with --all each cited word with its crate and file

Exported is what a crate's lib.rt hands on by `pub use`, what its public modules have, and the methods of an exported type.
Ends with 1 where a word is missing.
"""

import re
import sys
from pathlib import Path

ROOT = Path(__file__).resolve().parents[1]
DOCUMENT = ROOT / "docs" / "DEFINITIONS.md"
IMPORT = re.compile(r"ghost use Rattle\.(\w+)\.specs\.([\w.]+)\.\{([^}]*)\}", re.S)
WORD = re.compile(r"[^\s(){}\[\],;.:]+")


def exported(crate):
    """The names that a crate hands on."""
    text = (crate / "src" / "lib.rt").read_text() if (crate / "src" / "lib.rt").exists() else ""
    names = set()
    for path in re.findall(r"pub use ([^;]*);", text):
        names.update(re.findall(r"\w+", path.partition("{")[2] or path.rpartition("::")[2]))
    names.update(re.findall(r"^pub (?:struct|enum|trait|fn) (\w+)", text, re.M))
    for module in re.findall(r"^pub mod (\w+);", text, re.M):
        names.update(re.findall(r"^pub (?:struct|enum|trait|fn) (\w+)", (crate / "src" / f"{module}.rt").read_text(), re.M))
    return names


def contracts(text, names):
    """The clauses of the exported calls of a file."""
    holder, all_of_them, collecting, public = None, False, [], False
    for line in text.split("\n"):
        found = re.match(r"(?:impl(?:<[^>]*>)?|(pub trait)) (.* for )?(\w+)", line)
        if found:
            holder, all_of_them = found.group(3), bool(found.group(1) or found.group(2))
        if line == "}":
            holder = None
        call = re.match(r"(\s*)(pub(?:\(crate\))? )?(?:unsafe )?fn (\w+)", line)
        if call:
            shown = call.group(2) == "pub "
            public = holder in names and (shown or all_of_them) if call.group(1) else shown and call.group(3) in names
        if re.match(r"\s*(requires|ensures)", line):
            collecting = [line]
        elif collecting and re.match(r"\s*[{}]\s*$|\s*\{\}", line):
            if public:
                yield "\n".join(collecting)
            collecting = []
        elif collecting:
            collecting.append(line)
    if collecting and public:
        yield "\n".join(collecting)


def cited():
    """Each word of specs/ that an exported contract cites: its crate and file."""
    found = {}
    for crate in sorted((ROOT / "crates").iterdir()):
        names = exported(crate)
        for path in sorted((crate / "src").rglob("*.rt")):
            text = path.read_text()
            words = {}
            for owner, module, listed in IMPORT.findall(text):
                if (ROOT / "crates" / owner).exists() and "declared" not in module:
                    words.update({word.strip(): (owner, module) for word in listed.split(",")})
            for clauses in contracts(text, names):
                for word in WORD.findall(clauses):
                    if word in words:
                        found[word] = words[word]
    return found


def defined():
    """All words that files of specs/ define."""
    words = set()
    for path in (ROOT / "crates").glob("*/specs/*.antt"):
        words.update(re.findall(r"^\s*(?:abbrev |unfoldable )?pub (?:record |data )?([^\s:(]+)", path.read_text(), re.M))
    return words


def main():
    named = set(re.findall(r"`([^`\s]+)`", DOCUMENT.read_text()))
    words = cited()
    if "--all" in sys.argv:
        for word, (crate, module) in sorted(words.items()):
            print(f"{word:32}{crate}, {module}")
    missing = {word: place for word, place in words.items() if word not in named}
    for word, (crate, module) in sorted(missing.items(), key=lambda item: item[1]):
        print(f"not in DEFINITIONS.md: {word} ({crate}, {module})")
    return 1 if missing else 0


if __name__ == "__main__":
    sys.exit(main())
