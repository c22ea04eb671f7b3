"""Lists the definitions that a clause rests on: python3 checks/believed.py CRATE.MODULE.NAME..

Prints a line for each file with definitions of ours that one reaches from these names, with their numbers of lines without
comments: files and definitions each behind those that they use, as far as files allow it. What the kit defines is
counted as known."""
import pathlib
import re
import sys

CRATES = pathlib.Path("crates")
WORD = re.compile(r"(\.?)([A-Za-z_][\w'-]*)")
HEAD = re.compile(r"^\s*(?:(?:abbrev|unfoldable|irreducible)\s+)?(?:pub\s+)?(?:(?:record|data)\s+)?(\S+)")


class Module:
    """One file of specs: what each name in it means, and the text of each definition."""

    def __init__(self, crate, path):
        self.crate, self.path = crate, path
        self.names, self.chunks = {}, {}
        lines = path.read_text().split("\n")
        self.read_imports(lines)
        self.read_chunks(lines)

    def read_imports(self, lines):
        for line in lines:
            many = re.match(r"^use (Rattle\.[\w.]+)\.\{(.*)\}$", line)
            one = re.match(r"^use (Rattle\.[\w.]+) as (\w+)$", line)
            if many:
                for item in many[2].split(","):
                    name, _, other = item.strip().partition(" as ")
                    self.names[other or name] = (many[1], name)
            elif one:
                self.names[one[2]] = (one[1], None)

    def read_chunks(self, lines):
        chunk = []
        for line in lines + [""]:
            text = line.strip()
            if text and not text.startswith(("--", "use ", "module ", "pub mod ", "unfolding ")):
                chunk.append(line)
                continue
            if chunk:
                self.add(chunk)
            chunk = []

    def add(self, chunk):
        starts = [0]
        indent = len(chunk[0]) - len(chunk[0].lstrip())
        for number, line in enumerate(chunk[1:], 1):
            head = line[indent:]
            if re.match(r"(abbrev|unfoldable|irreducible|pub (record|data|[a-z_]\w* :))", head):
                starts.append(number)
        for start, end in zip(starts, starts[1:] + [len(chunk)]):
            self.chunks[HEAD.match(chunk[start])[1]] = chunk[start:end]


def load():
    modules = {}
    for path in sorted(CRATES.glob("*/specs/**/*.antt")):
        crate = path.parts[1]
        inner = ".".join(path.with_suffix("").parts[3:])
        modules[f"Rattle.{crate}.specs.{inner}"] = Module(crate, path)
    return modules


def declared(module, name):
    """The lines of a struct or an enum of the code, which specs see as a record or as data."""
    crate, inner = re.match(r"Rattle\.(\w+)\.specs\.declared\.([\w.]+)", module).groups()
    parts = inner.split(".")
    at = next(n for n, part in enumerate(parts) if part[0].isupper())
    parts, kind = parts[: at + 1], parts[at]
    path = CRATES / crate / "src" / ("/".join(parts[:-1]) + ".rt")
    if not path.exists():
        path = CRATES / crate / "src" / "/".join(parts[:-1]) / "mod.rt"
    text = path.read_text().split("\n")
    for start, line in enumerate(text):
        if re.match(rf"^pub (struct|enum) {kind}\b", line):
            end = start if line.endswith(";") else next(n for n in range(start, len(text)) if text[n] == "}")
            body = [x for x in text[start : end + 1] if x.strip() and not x.strip().startswith("//")]
            return (kind, path, len(body))
    raise SystemExit(f"{path}: no {kind}")


def walk(modules, roots):
    found, order = set(), []

    def visit(module, name):
        if module.startswith("Rattle.std") or (module, name) in found or not module.startswith("Rattle.heco"):
            return
        if ".specs.declared." in module:
            entry = declared(module, name)
            if entry[:2] not in found:
                found.add(entry[:2])
                order.append(entry)
            return
        found.add((module, name))
        home = modules.get(module)
        if home is None or name not in home.chunks:
            return
        for word in words_of(home, name):
            visit(*word)
        chunk = home.chunks[name]
        order.append((name, home.path, len(chunk)))

    def words_of(home, name):
        for line in home.chunks[name]:
            code = line.split(" -- ")[0]
            yield from signs_of(home, code, name)
            before = None
            for dot, word in WORD.findall(code):
                if dot and before in home.names and home.names[before][1] is None:
                    yield (home.names[before][0], word)
                elif not dot and word in home.names and home.names[word][1] is not None:
                    yield home.names[word]
                elif not dot and word in home.chunks and word != name:
                    yield (this_module(home), word)
                before = word

    def signs_of(home, code, name):
        """Operators, whose names have a hole for each operand; an arrow that binds stands for the one that goes on."""
        code = code.replace("←", ">>=")
        for other in [*home.names, *home.chunks]:
            signs = other.replace("◌", " ").split()
            if "◌" in other and other != name and all(sign in code.split() for sign in signs):
                yield home.names.get(other) or (this_module(home), other)

    def this_module(home):
        return next(m for m, h in modules.items() if h is home)

    for module, name in roots:
        visit(module, name)
    return order


def main():
    modules = load()
    roots = []
    for root in sys.argv[1:]:
        crate, module, name = root.split(".")
        roots.append((f"Rattle.{crate}.specs.{module}", name))
    order = walk(modules, roots)
    files = {}
    for name, path, lines in order:
        files.setdefault(path, []).append((name, lines))
    for path, names in files.items():
        listed = ", ".join(f"`{name}` {lines}" for name, lines in names)
        print(f"- `{path.relative_to(CRATES)}`, {sum(lines for _, lines in names)}: {listed}")
    print()
    print(f"In all {sum(lines for _, _, lines in order)} lines: {len(order)} definitions in {len(files)} files.")


main()
