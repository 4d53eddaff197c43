"""papers: RULES.md, README.md and CHANGELOG.md, and the lists of refusals, as far as tools/claims asks."""
import os
import re

from definitions import TOP

LINK = re.compile(r"\[([^\]]+)\]\(([^)\s]+)\)")
CITED = re.compile(r"\[[^\]]+\]\(\.\./(\S+?\.antt)\)((?:,? `[^`]+`)*)")
PROSE = ("README.md", "CHANGELOG.md", "docs/RULES.md", "docs/CLAIMS.md", "docs/DECISIONS.md")
WIDTH = 160


def read(name):
    return (TOP / name).read_text()


def quoted(text):
    return re.findall(r"`([^`]+)`", text)


def leads(target):
    """The file that a link of docs/ leads to, from the top."""
    return os.path.normpath(f"docs/{target}")


def paragraphs():
    """The numbers of RULES, in their order."""
    return re.findall(r"^- \*\*(\d+\.\d+)\b", read("docs/RULES.md"), re.M)


def numbering():
    """Where the numbers of RULES are not consecutive."""
    section = part = 0
    for head, number in re.findall(r"^## (\d+)\. |^- \*\*(\d+\.\d+)\b", read("docs/RULES.md"), re.M):
        section, part = (section + 1, 0) if head else (section, part + 1)
        wanted = str(section) if head else f"{section}.{part}"
        if (head or number) != wanted:
            yield f"docs/RULES.md: {head or number} stands where {wanted} is due"
            return


def cited(found, ours):
    """Links of RULES that lead to no file, or to one that does not define a name beside it."""
    files = {str(file.path): file for file in ours.files.values()}
    for path, names in CITED.findall(re.sub(r"\s+", " ", read("docs/RULES.md"))):
        for name in quoted(names) or [""]:
            there = path in files and (not name or name in files[path].items)
            found["cited"] += there
            if not there:
                yield f"docs/RULES.md: {path} does not define {name!r}" if path in files else f"docs/RULES.md: {path} is not there"


def covered(rows):
    """Paragraphs of RULES without a row of CLAIMS and without a reason; numbers in CLAIMS that RULES has not. `rows` are the first columns."""
    told = paragraphs()
    claimed = {number for row in rows for number in re.match(r"[\d., ]*", row)[0].replace(",", " ").split() if "." in number}
    ending = read("docs/CLAIMS.md").partition("## Paragraphs without a row")[2]
    free = {number for numbers in re.findall(r"^- ([\d., ]+): \S", ending, re.M) for number in numbers.split(", ")}
    for row in rows:
        if not re.match(r"\d+\.\d+(, \d+\.\d+)* \S", row):
            yield f"docs/CLAIMS.md: {row!r} begins with no number of RULES"
    for number in sorted((claimed | free) - set(told)):
        yield f"docs/CLAIMS.md: RULES has no {number}"
    for number in told:
        if number not in claimed | free:
            yield f"docs/RULES.md: {number} has no row in CLAIMS, and no reason at its end"
        elif number in claimed & free:
            yield f"docs/CLAIMS.md: {number} has a row, and is listed as one without"


def prose():
    """Lines that are too long; tables and indented code are free."""
    for name in PROSE:
        for number, line in enumerate(read(name).splitlines(), 1):
            if len(line) > WIDTH and not line.startswith(("|", "    ")):
                yield f"{name}:{number}: {len(line)} characters, where {WIDTH} is the most"


def changelog():
    """Landings that CHANGELOG has no line for."""
    lines = [line for line in read("CHANGELOG.md").splitlines() if line.startswith("- ")]
    for page in sorted(TOP.glob("docs/landings/*.md")):
        name = str(page.relative_to(TOP))
        if not any(name in line for line in lines):
            yield f"CHANGELOG.md: it has no line for {name}"


def case_of(name):
    """ZERO_BYTE of the header is ZeroByte."""
    return "".join(word.capitalize() for word in name.removeprefix("PA_").split("_"))


def in_header():
    """The refusals of the C header: number and sentence of each case; and what is wrong there."""
    text = read("bindings/c/property_area.h")
    numbers = re.findall(r"^ +PA_(\w+) = (\d+),?$", text, re.M)
    sentences = dict(re.findall(r'^ +case PA_(\w+): return "(.+)";$', text, re.M))
    wrong = [f"bindings/c/property_area.h: PA_{name} has no sentence" for name, _ in numbers if name not in sentences]
    wrong += [f"bindings/c/property_area.h: PA_{name} has no number" for name in sentences if name not in dict(numbers)]
    return {case_of(name): (number, sentences.get(name, "")) for name, number in numbers}, wrong


def tabled(header):
    """Where README's table of refusals, if it has one, differs from the header's list."""
    table = read("README.md").partition("\n## Refusals\n")[2].partition("\n## ")[0]
    cells = [[cell.strip().strip("`") for cell in line.strip("|").split("|")] for line in table.splitlines() if re.match(r"\|\s*`?\d", line)]
    rows = {(case_of(row[1]), (row[0], row[2])) for row in cells if len(row) > 2}
    for case, (number, sentence) in sorted(rows - set(header.items())):
        yield f"README.md: Refusals: {number} {case}: {sentence!r} is not in the list of bindings/c/property_area.h"
    for case, (number, _) in header.items():
        if "\n## Refusals\n" in read("README.md") and case != "Accepted" and case not in dict(rows):
            yield f"README.md: Refusals: {number} {case} is not in the table"


def refusals(found):
    """Where the lists of refusals differ."""
    header, wrong = in_header()
    yield from wrong
    yield from tabled(header)
    told = {(case, number) for case, (number, _) in header.items() if case != "Accepted"}
    code = read("crates/layout/src/refusal.rt")
    cases = re.findall(r"^    (\w+) = \d+,$", code.partition("pub enum Refusal {")[2].partition("\n}")[0], re.M)
    lists = {
        "crates/layout/specs/Refusals.antt": set(re.findall(r"^number_of Refusal\.(\w+) = (\d+)$", read("crates/layout/specs/Refusals.antt"), re.M)),
        "crates/layout/src/refusal.rt": set(re.findall(r"^    (\w+) = (\d+),$", code, re.M)),
        "docs/RULES.md": {(case, number) for number, case in re.findall(r"^\| (\d+) \| (\w+) \|", read("docs/RULES.md"), re.M)},
    }
    for name, rows in lists.items():
        for case, number in sorted(rows ^ told):
            yield f"{name}: {case} = {number} is {'not in' if (case, number) in rows else 'only in'} the list of bindings/c/property_area.h"
    if sorted(cases) != sorted(case for case, _ in told):
        yield "crates/layout/src/refusal.rt: the cases of Refusal are not those of bindings/c/property_area.h, one for one"
    for name, text in (("build.rs", "../c/property_area.h"), ("src/refusal.rs", "/refusals.rs")):
        if text not in read(f"bindings/rust/{name}"):
            yield f"bindings/rust/{name}: it does not take the refusals from {text}"
    found["refusals"] = len(told)


def demand():
    """The statement that README.md shows is the one that stands in the definitions."""
    record = read("crates/history/specs/Demand.antt").partition("\npub record ")[2].rstrip()
    if "\n    pub record " + record.replace("\n", "\n    ") + "\n" not in read("README.md"):
        yield "README.md: the record `Demand` is not that of crates/history/specs/Demand.antt"


def figures():
    """What README.md counts is what READING.md and the tree have: laws, lines of definitions, must-fail edits, pages of promises."""
    readme, reading = " ".join(read("README.md").split()), read("docs/READING.md")
    edits = len(list((TOP / "crates").glob("*/must-fail/*.edit")))
    pages = len(list((TOP / "crates").glob("*/proofs/Promises.antt")))
    laws, lines = re.search(r", (\d+) laws", reading)[1], re.search(r"blank lines: ([\d,]+) in all", reading)[1]
    for told in (f"{laws} laws, on the page proofs/Promises.antt of each of {pages} crates", f"{lines} lines of them", f"{edits} wrong edits"):
        if told not in readme:
            yield f"README.md: it does not say: {told}"
