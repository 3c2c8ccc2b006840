"""Lists the places in the crates' code where an older form of Rust may stand in for one of today's.

    python3 tools/places.py [COMMIT]

With a commit, its files are read in place of the checkout's. A row is a place to look at, not a verdict.
"""

import collections
import itertools
import pathlib
import re
import subprocess
import sys

TOP = pathlib.Path(__file__).resolve().parent.parent


def git(*words):
    return subprocess.run(["git", "-C", str(TOP), *words], check=True, capture_output=True, text=True).stdout


def files(commit, pattern):
    """The paths that match, with their text."""
    if commit:
        names = git("ls-tree", "-r", "--name-only", commit).splitlines()
        return {name: git("show", f"{commit}:{name}") for name in names if re.fullmatch(pattern, name)}
    names = git("ls-files").splitlines()
    return {name: (TOP / name).read_text() for name in names if re.fullmatch(pattern, name) and (TOP / name).exists()}


def lines(code, pattern):
    """Path, line number and line of each line of code, comments aside, that matches."""
    found = []
    for path, text in code.items():
        for number, line in enumerate(text.splitlines(), 1):
            bare = line.split("//")[0]
            if re.search(pattern, bare) and not bare.lstrip().startswith("ghost"):
                found.append((path, number, line.strip()))
    return found


def functions(code):
    """Path, name, parameters and clauses of each function that has a body."""
    header = re.compile(r"fn (\w+)(?:<[^(]*?>)?\(((?:[^()]|\([^()]*\))*)\)([^{;]*?)((?:\n\s+(?:requires|ensures)[^\n]*)*)\s*\{")
    for path, text in code.items():
        for match in header.finditer(text):
            yield path, match[1], match[2], match[4]


def atoms(clauses):
    """The single facts of a function's clauses, each with the names of values taken out."""
    for _, text in re.findall(r"(requires|ensures)\*? ?\w* ?\{ (.*) \}", clauses):
        for fact in re.split(r" × ", text):
            fact = fact.strip("() ")
            yield re.sub(r"(?<![\w.])[a-z_]+(\.(now|old|new|entry))+|(?<![\w.({])\b[a-z_]+\b(?= ≡ true| ≤ \d| ≡)", "_", fact)


def repeated_facts(code):
    found = collections.defaultdict(list)
    for path, name, _, clauses in functions(code):
        for fact in set(atoms(clauses)):
            found[fact].append(f"{path}:{name}")
    return [(fact, places) for fact, places in found.items() if len(places) >= 3]


def parameters_together(code):
    found = collections.defaultdict(list)
    for path, name, parameters, _ in functions(code):
        if "/tests" in path or "_tests/" in path:
            continue
        names = sorted(set(re.findall(r"(\w+): ", parameters)) - {"self", "rt", "heap"})
        for pair in itertools.combinations(names, 2):
            found[pair].append(f"{path}:{name}")
    return [(", ".join(pair), places) for pair, places in found.items() if len(places) >= 3]


def twins(code):
    """Functions of one name in several crates, and functions whose bodies are alike but for names and numbers."""
    named = collections.defaultdict(set)
    shaped = collections.defaultdict(set)
    body = re.compile(r"\n( *)(?:pub(?:\(\w+\))? )?(?:const )?fn (\w+)[^\n]*(?:\n(?!\1\})[^\n]*)*?\n\1\{?((?:\n(?!\1\})[^\n]*)*)\n\1\}")
    for path, text in code.items():
        for match in body.finditer(text):
            kept = [line.strip() for line in match[3].splitlines() if line.strip() and not line.strip().startswith("//")]
            shape = re.sub(r"\b[a-z_][a-z_0-9]*\b|\b[\d_]+\b|\"[^\"]*\"|'[^']*'", "_", "\n".join(kept))
            named[match[2]].add(path)
            if len(kept) >= 3:
                shaped[shape].add(f"{path}:{match[2]}")
    same_name = [(name, sorted(paths)) for name, paths in named.items() if len({p.split("/")[1] for p in paths}) > 1 and name not in ("main", "new", "fmt")]
    alike = [("alike", sorted(places)) for places in shaped.values() if len(places) > 1]
    return same_name + alike


def main():
    commit = sys.argv[1] if len(sys.argv) > 1 else None
    code = files(commit, r"crates/[^/]+/src/.*\.rt")
    proofs = files(commit, r"crates/[^/]+/proofs/.*Answers\.antt")
    points = {
        "1 enums, nested options, numbers for a kind or a refusal": lines(code, r"^\s*(pub(\(crate\))? )?enum |Option<Option|Option<Result|fn \w*(number|layer|code)\w*\(.*-> (u8|u32)|_ => 0,"),
        "2 twins": twins(code),
        "3 loops with a condition, and counts by hand": lines(code, r"^\s*(while|loop)\b|for \w+ in \(?\d+\.\."),
        "4 conversions and printing by hand": lines(code, r"^\s*impl.* (From|TryFrom|FromStr|PartialEq|Eq|PartialOrd|Ord|Clone|Default)\b.* for |fn from_\w+|^\s*(pub )?fn (word|digit|value)\(|\.push_str\(|format!\(in|out\.extend_from_slice"),
        "5 a fact in three contracts or more": repeated_facts(code),
        "5 parameters together in three functions or more": parameters_together(code),
        "6 buffers with a count, sorted lists searched by hand": lines(code, r"^\s*(count|len|limit|filled)(: usize| = )|let mut (low|filled|count)\b|\[\.\.count\]|(list|places|buffer): &mut \[.*(count|at): usize"),
        "7 steps chosen by a value, tables of functions": lines(code, r"enum Step|\bdyn \b|: fn\(|for step in"),
    }
    for point, rows in points.items():
        print(f"{point}: {len(rows)}")
        for row in rows:
            print("   ", *row)
    answers = {path: len(re.findall(r"^pub \S+ : goal\.", text, re.M)) for path, text in proofs.items()}
    print(f"8 answers: {sum(answers.values())} in {len(answers)} files")


main()
