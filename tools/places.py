#!/usr/bin/env python3
"""Lists the places in crates/*/src that today's forms could replace, point by point.

usage: places.py [COMMIT]     the files of a commit, or those of the working tree
Tests are left out. What a pattern finds is a candidate; docs/DESIGN-PASS.md says what became of each.
"""
import collections, difflib, itertools, re, subprocess, sys

def files(commit):
    run = lambda *a: subprocess.run(["git", *a], capture_output=True, text=True, check=True).stdout
    if commit:
        names = run("ls-tree", "-r", "--name-only", commit, "crates").split()
        read = lambda n: run("show", f"{commit}:{n}")
    else:
        names = run("ls-files", "crates").split()
        read = lambda n: open(n).read()
    return {n: read(n) for n in names if re.search(r"/src/\w+\.rt$", n) and "tests" not in n}

# what a line must match to be a candidate of a point
LINES = {
    "1 an Option, a tuple or a bool in the place of a Result": r"-> Option<Refusal>|Result<.*\(\w+, Refusal\)>|if let Some\(refusal\)|Some\(refusal\) =>|fn makes_\w+<",
    "1 an error passed on by hand": r"Err\((refusal|refused|fault)\) =>|Err\(_\) =>",
    "1 a case of an own enum that says refused or nothing": r"^    (Refused|NoPaper|None|Nothing|Failed)(\(.*\))?,$",
    "1 a number for a kind, a refusal or a layer": r"pub (number|layer|kind): u8|-> u8$",
    "3 an index or a count kept by hand": r"for \w+ in 0\.\.|\w\[i\]|return i;|while let Some|(count|taken) \+= 1",
    "4 written by hand": r"impl(<.*>)? (PartialEq|Eq|PartialOrd|Ord|Clone|Copy|Debug|Default) for|=> (f\.write_str\()?\"",
    "6 a buffer of blanks": r"\[\w+(<.*>)?; MOST_\w+\]|= \[.*; MOST_\w+\]|const NO_\w+|count: usize",
    "6 a slice with places beside it": r"(from|to): usize,",
    "6 a part of a buffer by its length": r"\[0\.\.\w",
    "7 a choice of steps": r"\bdyn\b|\bfn\(|Box<",
}

def lines(tree, pattern):
    for name, text in tree.items():
        last = 0
        for i, line in enumerate(text.split("\n"), 1):
            if re.search(pattern, line) and "ghost use" not in line:
                # lines of words that follow one another are one place
                if not ('=> "' in line and last == i - 1):
                    yield f"{name}:{i}: {line.strip()}"
                last = i

FN = re.compile(r"^( *)(pub(?:\(crate\))? )?fn (\w+)(<[^(]*>)?\((.*?)\)(.*?)\n\1\{\n(.*?)\n\1\}", re.S | re.M)

def functions(tree):
    for name, text in tree.items():
        for m in FN.finditer(text):
            line = text.count("\n", 0, m.start()) + 1
            yield f"{name}:{line}", m.group(3), m.group(5), m.group(6), m.group(7)

def twins(tree):
    norm = lambda body: re.findall(r"\w+|\S", re.sub(r"//.*", "", body))
    bodies = [(at, fn, norm(args + body)) for at, fn, args, _, body in functions(tree)]
    for (a, f, x), (b, g, y) in itertools.combinations([b for b in bodies if len(b[2]) > 12], 2):
        if min(len(x), len(y)) / max(len(x), len(y)) > 0.8 and difflib.SequenceMatcher(None, x, y).ratio() > 0.8:
            yield f"{a} {f} and {b} {g}"

def impls(tree):
    blocks = [(f"{name}:{text.count(chr(10), 0, m.start()) + 1}", m.group(1), re.findall(r"\w+|\S", m.group(0).replace(m.group(2), "Self")))
              for name, text in tree.items() for m in re.finditer(r"^impl(?:<[^>]*>)? (\w+) for (\w+).*?\n\}", text, re.S | re.M)]
    for (a, t, x), (b, u, y) in itertools.combinations(blocks, 2):
        if t == u and difflib.SequenceMatcher(None, x, y).ratio() > 0.8:
            yield f"impl {t} at {a} and {b}"

def repeated(tree):
    facts, pairs = collections.defaultdict(list), collections.defaultdict(list)
    for at, fn, args, clauses, _ in functions(tree):
        for fact in re.findall(r"requires (?:\w+ )?\{ (.*) \}", clauses):
            facts[re.sub(r"\.(now|old)\b", "", fact)].append(f"{at} {fn}")
        params = sorted(p.strip() for p in re.sub(r"<[^>]*>", "", args).replace("\n", " ").split(",") if ":" in p)
        for pair in itertools.combinations(params, 2):
            pairs[" and ".join(pair)].append(f"{at} {fn}")
    for what in (facts, pairs):
        for fact, where in what.items():
            if len(where) > 2:
                yield f"{fact} in {len(where)}: " + ", ".join(where)

def main():
    tree = files(sys.argv[1] if len(sys.argv) > 1 else None)
    found = {title: list(lines(tree, pattern)) for title, pattern in LINES.items()}
    found["2 twins"] = list(twins(tree)) + list(impls(tree))
    found["5 a fact or a pair of parameters in three functions or more"] = list(repeated(tree))
    for title in sorted(found):
        print(f"{title}: {len(found[title])}")
        for place in found[title]:
            print("  " + place)

main()
