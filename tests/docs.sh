#!/bin/bash
# Checks that what the documents name is there: each link's file and section, each path from a crate or a folder of the repository
# on, each subcommand, and in docs/CONTRACTS.md and docs/RULE.md each file, each call that stands in it, and each must-fail edit; that
# docs/QUICKSTART.md and README.md have the text of the counter's crates, README.md's code in C that of an example, and
# docs/GUIDE.md that of some crate; that the files in which docs/PROVING.md finds a lemma have it; that docs/DECISIONS.md lists the
# crates without an edit; and that the table of the crates and their picture are those of crates.txt (bench/map), and the plots
# those of the tables of docs/PERFORMANCE.md (bench/plots).
cd "$(dirname "$0")/.." || exit 1
bench/map --check || exit
bench/plots --check || exit
python3 - <<'PYTHON'
import pathlib, re, sys

missing = []
pages = [pathlib.Path("README.md"), pathlib.Path("CONTRIBUTING.md"), *sorted(pathlib.Path("docs").glob("*.md"))]

# Links lead to files.
for page in pages:
    for target in re.findall(r"\]\(([^)#]+)\)", page.read_text()):
        if "://" not in target and not (page.parent / target).exists():
            missing.append(f"{page}: no file {target}")

# A section that a page names beside a link, or links to, is one of that page.
def anchor(heading):
    return re.sub(r"[^\w\- ]", "", heading.lower()).replace(" ", "-")

for page in pages:
    text = re.sub(r"\s+", " ", page.read_text())
    named = re.findall(r'\]\(([\w./-]+\.md)\), "([^"]+)"', text)
    named += [(target, title) for title, target in re.findall(r'"([^"]+)" in \[[^\]]*\]\(([\w./-]+\.md)\)', text)]
    named += re.findall(r"\]\(((?:[\w./-]+\.md)?)#([\w-]+)\)", text)
    for target, title in named:
        found = page.parent / target if target else page
        headings = re.findall(r"^#+ (.*)", found.read_text(), re.M) if found.exists() else []
        if not {title, title.lower()} & {*headings, *map(anchor, headings)}:
            missing.append(f"{page}: no section {title} in {found}")

# A path that begins with a crate or with a folder of the repository is there.
tops = {path.name for path in [*pathlib.Path().iterdir(), *pathlib.Path("crates").iterdir()] if path.is_dir()}
for page in pages:
    for span in re.findall(r"`([\w.-]+(?:/[\w.-]+)+/?)`", page.read_text()):
        made = "/out/" in span or "NAME" in span
        if span.split("/")[0] in tops and not made and not any((top / span).exists() for top in (pathlib.Path(), pathlib.Path("crates"))):
            missing.append(f"{page}: no {span}")

# A subcommand that a page names is one of the front end's.
known = set(re.findall(r"^\./mvrlu (\w+)", pathlib.Path("tools/front/page.txt").read_text(), re.M))
for page in pages:
    missing += [f"{page}: no subcommand {word}" for word in sorted(set(re.findall(r"\./mvrlu (\w+)", page.read_text())) - known)]

def cells(page):
    for line in page.read_text().splitlines():
        if line.startswith("| ") and not line.startswith("|--"):
            yield [cell.strip() for cell in line.strip("|").split(" | ")]

def edit_exists(crate, name):
    return pathlib.Path(f"crates/{crate}/must-fail/{name}.edit").exists()

# An edit stands behind its crate's name, or else is of one of the crates given.
def check_edits(page, cell, crates):
    named = None
    for word, colon in re.findall(r"`(\w+)`(:?)", cell):
        if colon:
            named = word
        elif pathlib.Path(f"crates/{word}").is_dir():
            continue
        elif not any(edit_exists(crate, word) for crate in ([named] if named else crates)):
            missing.append(f"{page}: no edit {word} of {named or crates}")

contracts = pathlib.Path("docs/CONTRACTS.md")
for row in cells(contracts):
    if len(row) != 4 or row[0] == "Promise":
        continue
    files = re.findall(r"`([\w/]+(?:\.rt)?)`", row[2])
    texts = ""
    for name in files:
        path = pathlib.Path("crates") / name
        if not path.exists():
            missing.append(f"{contracts}: no file {name}")
        elif path.is_dir():
            texts += "".join(part.read_text() for part in sorted(path.glob("*.rt")))
        else:
            texts += path.read_text()
    for call in re.findall(r"`([\w:]+)`", row[1]):
        last = call.split("::")[-1]
        if not re.search(rf"\b(fn|struct|trait|impl|enum|type)\b.*\b{last}\b", texts) and last not in ("Stands",):
            missing.append(f"{contracts}: no {call} in {row[2]}")
    check_edits(contracts, row[3], [name.split("/")[0] for name in files])

rule = pathlib.Path("docs/RULE.md")
for row in cells(rule):
    if len(row) == 2 and "`:" in row[1]:
        check_edits(rule, row[1], [])

# The crates of which docs/DECISIONS.md says that they have no edit are those.
decisions = pathlib.Path("docs/DECISIONS.md")
without = set(re.findall(r"`(\w+)`", re.search(r"These have none: (.*?)\. ", decisions.read_text(), re.DOTALL)[1]))
bare = {path.name for path in pathlib.Path("crates").iterdir() if path.is_dir() and not any(path.glob("must-fail/*.edit"))}
for crate in sorted(without ^ {crate for crate in bare if not crate.endswith(("_tests", "_main"))}):
    missing.append(f"{decisions}: {crate} is {'listed, and has an edit' if crate in without else 'not listed, and has no edit'}")

# The code of the quickstart and of README is that of the counter's crates, README's code in C that of an example, and the
# guide's that of some crate, whatever its indentation.
def dedented(text):
    return "\n".join(line.strip() for line in text.splitlines())

quick = pathlib.Path("docs/QUICKSTART.md")
least = [*pathlib.Path("crates/counter").glob("s*/*.[ra]*"), pathlib.Path("crates/counter_main/src/main.rt")]
counter = "source of the counter", [dedented(path.read_text()) for path in least]
example = "example", [dedented(path.read_text()) for path in pathlib.Path("examples/c").glob("*.c")]
source = "source of a crate", [dedented(path.read_text()) for path in pathlib.Path("crates").glob("*/src/**/*.rt")]
for page, rust in ((quick, counter), (pathlib.Path("README.md"), counter), (pathlib.Path("docs/GUIDE.md"), source)):
    blocks = re.findall(r"^```(\w*)\n(.*?)^```$", page.read_text(), flags=re.DOTALL | re.MULTILINE)
    if not blocks:
        missing.append(f"{page}: no code of a crate")
    for kind, block in blocks:
        where, texts = example if kind == "c" else rust
        if not any(dedented(block) in text for text in texts):
            missing.append(f"{page}: the {kind} that begins {block.splitlines()[0].strip()} stands in no {where}")
if re.search(r"^    \S", re.sub(r"(?m)^```.*?^```$", "", pathlib.Path("docs/GUIDE.md").read_text(), flags=re.DOTALL), re.M):
    missing.append("docs/GUIDE.md: code that is compared with no source")
told = pathlib.Path("crates/counter_main/stdout").read_text()
listed = [line for line in pathlib.Path("crates.txt").read_text().splitlines() if re.match(r"counter(_main)?:", line)]
for lines in (told.splitlines(), listed, pathlib.Path("HANDLES").read_text().splitlines()):
    if "".join(f"    {line}\n" for line in lines) not in quick.read_text():
        missing.append(f"{quick}: not as it is: {lines[0]} ..")

# The lemmas of the page on proofs stand where it says.
proving = pathlib.Path("docs/PROVING.md")
for row in cells(proving):
    here = None
    for lemmas, crate, file in re.findall(r"((?:(?!\(`\w+`: ).)*)\(`(\w+)`: `([\w/]+)`", row[-1]):
        path = pathlib.Path(f"crates/{crate}/{file}.antt")
        if not path.exists():
            missing.append(f"{proving}: no file {path}")
            continue
        names = [name for span in re.findall(r"`([^`]+)`", lemmas) for name in re.findall(r"[\w-]+", span)]
        if names and not any(re.search(rf"^ *(pub )?{re.escape(name)} :", path.read_text(), flags=re.MULTILINE) for name in names):
            missing.append(f"{proving}: none of {names} in {path}")

print("\n".join(missing) or "docs: what they name is there")
sys.exit(bool(missing))
PYTHON
