#!/usr/bin/env python3
"""Lists the places in src/ that a look at the repository's design begins with, point by point.

usage: python3 tools/places.py [COMMIT]      in the repository; with no COMMIT, of the work tree

Each line is a place to be judged, not a fault. docs/DESIGN-PASS.md says what became of each.
"""
import re
import subprocess
import sys


def files(commit):
    """The .rt files of the crates' src/, with their text."""
    if commit:
        names = subprocess.run(["git", "ls-tree", "-r", "--name-only", commit, "crates"], capture_output=True, text=True, check=True).stdout.split()
        show = lambda n: subprocess.run(["git", "show", f"{commit}:{n}"], capture_output=True, text=True, check=True).stdout
    else:
        names = subprocess.run(["git", "ls-files", "--cached", "--others", "--exclude-standard", "crates"], capture_output=True, text=True, check=True).stdout.split()
        show = lambda n: open(n, encoding="utf-8").read()
    return {n: show(n) for n in sorted(names) if re.fullmatch(r"crates/\w+/src/.*\.rt", n)}


def block(text, at):
    """The text from the brace at or after `at` to the one that closes it."""
    start = text.index("{", at)
    depth = 0
    for i in range(start, len(text)):
        if text[i] == "{":
            depth += 1
        elif text[i] == "}":
            depth -= 1
            if depth == 0:
                return text[start:i + 1]
    return text[start:]


class Function:
    """A function of a file: its name, parameters, clauses and body."""

    def __init__(self, file, text, match):
        self.file, self.name = file, match.group(1)
        self.line = text.count("\n", 0, match.start()) + 1
        at = match.end() - 1
        depth = 0
        for end in range(at, len(text)):
            depth += {"(": 1, ")": -1}.get(text[end], 0)
            if depth == 0:
                break
        self.parameters = [" ".join(p.split()) for p in re.split(r",(?![^<(]*[>)])", text[at + 1:end]) if ":" in p]
        head = end + 1
        self.clauses = []
        self.body = ""
        while True:
            found = re.compile(r"\s*(requires|ensures)\*?\s*(\w*)\s*(?=\{)").match(text, head)
            if not found:
                skipped = re.compile(r"\s*(->[^{;]*?)?(?=\s*(requires|ensures|\{|;))").match(text, head)
                if skipped and skipped.end() > head and skipped.group(1):
                    head = skipped.end()
                    continue
                break
            body = block(text, found.end())
            self.clauses.append((found.group(1), " ".join(body[1:-1].split())))
            head = text.index(body, found.end()) + len(body)
            # a comment between clauses
            comment = re.compile(r"(\s*//[^\n]*\n)+").match(text, head)
            if comment:
                head = comment.end()
        rest = re.compile(r"\s*\{").match(text, head)
        if rest:
            self.body = block(text, head)

    def where(self):
        return f"{self.file}:{self.line}: {self.name}"


def functions(sources):
    out = []
    for file, text in sources.items():
        for match in re.finditer(r"\bfn (\w+)(?:<[^()]*?>)?\(", text):
            line = text[text.rfind("\n", 0, match.start()) + 1:match.start()]
            if not line.lstrip().startswith("//") and "ghost" not in line:
                out.append(Function(file, text, match))
    return out


def skeleton(body):
    """The body with every name and literal replaced by a mark, so that functions that differ only in them are alike."""
    names = {}
    out = []
    for token in re.findall(r"[A-Za-z_]\w*|\d[\w.]*|'[^']*'|\"(?:\\.|[^\"])*\"|[^\s\w]", re.sub(r"//[^\n]*", "", body)):
        if re.match(r"[A-Za-z_]", token) and token not in ("if", "else", "match", "for", "in", "let", "return", "mut", "while", "loop", "as", "Ok", "Err", "Some", "None"):
            out.append(f"n{names.setdefault(token, len(names))}")
        elif re.match(r"[\d'\"]", token):
            out.append("0")
        else:
            out.append(token)
    return " ".join(out)


def section(title, lines):
    lines = list(lines)
    print(f"\n## {title}", *lines, f"-- {len(lines)}", sep="\n")


def grep(sources, pattern):
    for file, text in sources.items():
        for number, line in enumerate(text.split("\n"), 1):
            if re.search(pattern, line) and not line.lstrip().startswith("//"):
                yield f"{file}:{number}: {line.strip()}"


def normal(clause):
    return re.sub(r"\.(old|new|now|entry)\b", "", clause)


def main():
    sources = files(sys.argv[1] if len(sys.argv) > 1 else None)
    everything = functions(sources)
    product = [f for f in everything if not re.match(r"crates/\w+_tests/", f.file)]

    section("1a enums", grep(sources, r"^\s*(pub(\(crate\))? )?enum "))
    section("1b functions that answer a number for a kind or a refusal, and fields that hold one", grep(sources, r"fn \w+\(.*\) -> (Option<)?u(8|16)\b|^\s*(number|rule): u8,"))
    groups = {}
    for f in everything:
        if len(f.body) > 40:
            groups.setdefault(skeleton(f.body), []).append(f.where())
    section("2 functions alike but for names and literals (groups)", ("  |  ".join(g) for g in groups.values() if len(g) > 1))
    section("3 loops", grep(sources, r"^\s*(for .* in |while |loop \{)"))
    section("4a functions that make a text of a value", grep(sources, r"-> (Result<String, AllocError>|&'static str)"))
    section("4b errors and other values turned into others by hand", grep(sources, r"Err\(\w*::?Memory\)|::Memory => |Err\(_\) => Err|fn (raise|edge_of|raw|refuse|of_nodes)\b"))
    section("4c equality and order by hand", grep(sources, r"fn (has_tag|ranks_before|is_same|same_\w+|stands_at)\b|\.\w+ == \w+\.\w+.*&&"))
    facts = {}
    for f in product:
        for kind, clause in f.clauses:
            if kind == "requires":
                facts.setdefault(normal(clause), []).append(f.where())
    section("5a facts required in three or more functions", (f"{len(w)}x {fact}" for fact, w in facts.items() if len(w) >= 3))
    terms = {}
    for f in product:
        seen = set()
        for _, clause in f.clauses:
            for term in re.findall(r"\w+(?: (?:[\w.]+|\([^()]*\)))+", normal(clause)):
                if len(term) >= 40:
                    seen.add(term)
        for term in seen:
            terms.setdefault(term, set()).add(f.where())
    section("5b terms of forty letters or more that stand in the clauses of three or more functions", (f"{len(w)}x {term}" for term, w in terms.items() if len(w) >= 3))
    pairs = {}
    for f in product:
        named = [p for p in f.parameters if not p.startswith("heap:")]
        for i, p in enumerate(named):
            for q in named[i + 1:]:
                pairs.setdefault((p, q), []).append(f.where())
    section("5c parameters that travel together in three or more functions", (f"{len(w)}x {p}, {q}" for (p, q), w in pairs.items() if len(w) >= 3))
    section("6 a length beside a buffer, arrays side by side, tables of fixed size", grep(sources, r"^\s*(pub(\(crate\))? )?(len|count|lines|columns): |_records: Vec|: \[.*; \w+\],|slots: &'a mut"))
    section("7 a switch on which step to run", grep(sources, r"\bstands: bool|sought: |fn breaks_rule|: fn\(|dyn "))


main()
