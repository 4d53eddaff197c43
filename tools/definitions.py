"""definitions: what the files of crates/*/specs, crates/*/proofs and crates/*/src define, and which definitions a text names, as far as tools/claims asks."""
import pathlib
import re

TOP = pathlib.Path(__file__).resolve().parent.parent
USE = re.compile(r"^\s*(?:(?:abbrev|unfoldable) )?(?:ghost |pub )*use (\S+?)(?:\.\{(.*)\}| as (\S+?));?$")
HEAD = re.compile(r"^(?:(?:abbrev|unfoldable) )?(pub )?(data |record )?(\S+)(?= .*:| :|:$)")
MEMBERS = re.compile(r"^(?:pub )?([^(){}→:]+) :(?: |$)")
MODULE = re.compile(r"Rattle\.(\w+)\.(specs|proofs)\.(.+)")
WORD = re.compile(r"[^\s(){},;\[\]⌜⌝]+")


def lines_of(path):
    """How many lines of definitions a file has: without imports, comments and blanks."""
    return sum(1 for line in path.read_text().splitlines() if line.strip() and not line.strip().startswith("--") and not line.startswith("use "))


class Item:
    """A definition: its file and name, whether it is public, the words of its statement and those of its body."""

    def __init__(self, file, name, public):
        self.file, self.name, self.public = file, name, public
        self.statement, self.body = [], []


class File:
    """A file of definitions and laws. `items` has each by its name, and by those of its fields and cases; `imports` says where a word comes from."""

    def __init__(self, path):
        self.path = path.relative_to(TOP)
        self.crate, self.part = self.path.parts[1:3]
        self.module = (self.crate, self.part, ".".join(self.path.with_suffix("").parts[3:]))
        self.items, self.imports, self.aliases = {}, {}, {}
        self.read(path.read_text().splitlines())

    def own(self):
        return {item.name: item for item in self.items.values()}.values()

    def bring(self, line):
        """Takes in a `use` line; whether it was one."""
        used = USE.match(line)
        if not used:
            return False
        path, names, alias = used.groups()
        module = self.aliases.get(path)
        if MODULE.match(path):
            module = MODULE.match(path).groups()
        if alias:
            self.aliases[alias] = module
        for name in filter(None, map(str.strip, (names or "").split(","))):
            name, _, own = name.partition(" as ")
            self.imports[own or name] = (module, name)
        return True

    def read(self, lines):
        blocks = []  # the enclosing blocks: their indent; the item, or the words of a module's parameters
        item, words, start = None, [], 0
        for line in lines:
            text = line.strip()
            indent = len(line) - len(line.lstrip())
            if not text or text.startswith(("--", "pub mod ", "unfolding ")) or self.bring(line):
                continue
            while blocks and indent <= blocks[-1][0]:
                item = blocks.pop() and None
            first = text.split()[0]
            if blocks and isinstance(blocks[-1][1], Item):
                item = blocks[-1][1]
                words = item.body
                member = MEMBERS.match(text)
                for name in member[1].split() if member else ():
                    self.items.setdefault(name, item)
                text = text[member.end() :] if member else text
            elif item and indent > start:
                pass
            elif item and first == item.name:
                words = item.body
            elif first == "module":
                item, words = None, []
                blocks.append((indent, words))
            elif HEAD.match(text):
                public, block, name = HEAD.match(text).groups()
                item, start = Item(self, name, bool(public)), indent
                self.items[name] = item
                words = item.statement
                for _, parameters in blocks:
                    words.extend(parameters)
                if block:
                    blocks.append((indent, item))
            words.extend(WORD.findall(text))


class Definitions:
    def __init__(self):
        files = [File(path) for part in ("specs", "proofs") for path in sorted(TOP.glob(f"crates/*/{part}/**/*.antt"))]
        self.files = {file.module: file for file in files}

    def of(self, part):
        return [file for file in self.files.values() if file.part == part]

    def look(self, file, word):
        """The definition that a word of a file names, if it is one of ours."""
        alias, dot, name = word.partition(".")
        if dot and alias in file.aliases:
            module = file.aliases[alias]
            return self.look(self.files[module], name) if module in self.files else None
        if word in file.items:
            return file.items[word]
        module, name = file.imports.get(word.partition(".")[0], (None, None))
        return self.look(self.files[module], name) if module in self.files else None

    def named(self, file, words):
        return {item for item in (self.look(file, word) for word in words) if item}

    def reach(self, items):
        """These definitions, and all that they are made of."""
        reached, open_ = set(), list(items)
        while open_:
            item = open_.pop()
            if item not in reached:
                reached.add(item)
                open_ += self.named(item.file, item.statement + item.body)
        return reached

    def contracts(self, path):
        """The definitions that a file of code names."""
        code = File.__new__(File)
        code.items, code.imports, code.aliases = {}, {}, {}
        lines = [line.partition("//")[0] for line in path.read_text().splitlines()]
        rest = [line for line in lines if not code.bring(line.rstrip())]
        return self.named(code, WORD.findall("\n".join(rest)))
