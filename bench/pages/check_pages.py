#!/usr/bin/env python3
"""Looks over the pages: links, anchors, paths and names of definitions that lead nowhere, pages that are too long, and
commands, options, statuses, counts and scripts of bench/ that a page lacks, or has beyond those that are there. With a built
program it runs each command that stands behind a `$ ` in a block, and compares what it prints with what stands below it. A file
that a page shows (`$ cat NAME`) is made as it is shown.

usage: check_pages.py [PROGRAM]        (at the top of a checkout; the status is 1 if anything was found)
"""
import glob
import os
import re
import subprocess
import sys
import tempfile

PAGES = ["README.md", "CONTRIBUTING.md", "CHANGELOG.md", "bench/README.md", *sorted(glob.glob("docs/*.md")), *sorted(glob.glob("crates/*/README.md"))]
WORDS = "crates/sgt_command_line/src"
LINE = "crates/sgt_line/src"
TOPICS = "crates/sgt_explain/src/topics.rt"
WORDS_AT_MOST = {"README.md": 1100, "CONTRIBUTING.md": 700, "bench/README.md": 900, "docs/BENCH.md": 1500, "docs/GATE.md": 750}


def text_of(path):
    with open(path, encoding="utf-8") as file:
        return file.read()


def missing():
    """The names of commands that are none of this version."""
    arms = re.findall(r"(CommandName::.*) => command\(alloc\)", text_of(f"{WORDS}/commands.rt"))
    return {name for arm in arms for name in re.findall(r"CommandName::(\w+)", arm)}


def commands():
    """The commands that the code knows."""
    named = re.findall(r'b"(\w+)" => Some\(CommandName::(\w+)', text_of(f"{LINE}/name.rt"))
    return sorted(word for word, name in named if name not in missing())


def options():
    """The options that the code knows, by their long names."""
    words = text_of(f"{WORDS}/commands.rt")
    named = re.findall(r"""Taken::(?:Flag|Letter|Value|LetterValue)\((?:\s*'.',)?\s*"([\w-]+)\"""", words)
    named += re.findall(r'number_option\(\s*alloc,\s*"(\w+)"', text_of(f"{WORDS}/options.rt"))
    lines = text_of(f"{LINE}/kind.rt").splitlines()
    of_others = {line for line in lines if (names := set(re.findall(r"CommandName::(\w+)", line))) and names <= missing()}
    named += [name for line in lines if line not in of_others for name in re.findall(r'"--(\w+)"', line)]
    refused = re.findall(r'"(--[\w-]+) \(not in this version\)"', text_of("crates/sgt_driver/src/driver.rt"))
    return sorted({*(f"--{name}" for name in named), "--help", "--version"} - set(refused))


COMPLETIONS = ("docs/sgt.bash", "docs/sgt.zsh", "docs/sgt.fish")


def rewritten():
    """The words in a command's place that are made into other words before."""
    return re.findall(r'word == "(\w+)"', text_of(f"{LINE}/line.rt"))


def topics():
    """The rules and replies that can be asked about."""
    return [name.replace(" ", "-") for name in re.findall(r'b"([\w -]+)"(?: => Some|\) \{\n)', text_of(TOPICS))]


def completed():
    """The words that the completions for bash offer."""
    text = text_of("docs/sgt.bash")
    offers = re.findall(r"options='([^']*)'", text) + re.findall(r"-W '([^']*)'", text)
    return {word for offer in offers for word in offer.split()}


def statuses():
    """The statuses that the help of each command has."""
    return re.findall(r"^  (\d)  ", text_of(f"{WORDS}/commands.rt"), flags=re.M)


def anchor(heading):
    return re.sub(r"[^a-z0-9 _-]", "", heading.lower()).replace(" ", "-")


def dead_links():
    for page in PAGES:
        for link in re.findall(r"\]\(([^)\s]+)\)", re.sub(r"```.*?```", "", text_of(page), flags=re.S)):
            if link.startswith("http"):
                continue
            path, _, part = link.partition("#")
            target = os.path.normpath(os.path.join(os.path.dirname(page), path)) if path else page
            if not os.path.exists(target):
                yield f"{page}: {link} leads nowhere"
            elif part and part not in map(anchor, re.findall(r"^#+ (.*)$", text_of(target), flags=re.M)):
                yield f"{page}: {link} has no such heading"


def rules():
    """Of each row of ARCHITECTURE.md's rules: a file that it names, and a definition in it, or None for the file alone."""
    part = text_of("docs/ARCHITECTURE.md").split("## Where each rule lives")[1].split("\n## ")[0]
    for row in re.findall(r"^\| .* \|$", part, flags=re.M):
        cells = row.strip("|").split("|")
        for cell in cells[2:]:
            crate, path = cells[1].strip(" `"), None
            for found in re.finditer(r"(sgt_\w+)(?=[: ])|`((?:specs|src|proofs)/[^`]*)`|\(([^)]*)\)", cell):
                crate = found[1] or crate
                if found[2]:
                    path = f"crates/{crate}/{found[2]}"
                    yield path, None
                for name in re.findall(r"`(\w+)`", found[3] or "") if path else ():
                    yield path, name


def dead_paths():
    for path, name in rules():
        if not os.path.exists(path):
            yield f"docs/ARCHITECTURE.md: there is no {path}"
        elif name and not re.search(rf"\b{name}\b", text_of(path)):
            yield f"docs/ARCHITECTURE.md: {path} has no {name}"
    for page in PAGES:
        text, home = text_of(page), os.path.dirname(page)
        named = {f"crates/{path}" for path in re.findall(r"\b(sgt\w*/(?:src|specs|proofs)/[\w/-]+\.\w+)", text)}
        named |= set(re.findall(r"\b((?:bench|examples|docs)/[\w/-]+\.\w+)", text))
        if page.startswith("crates/"):
            named |= {f"{home}/{path}" for path in re.findall(r"`((?:src|specs|proofs)/[\w/-]+\.\w+)`", text)}
        for path in sorted(named):
            if not os.path.exists(path) and not path.startswith("examples/out/"):
                yield f"{page}: there is no {path}"


def long_pages():
    lines = len(text_of("README.md").splitlines())
    if lines > 120:
        yield f"README.md: {lines} lines, 120 wanted"
    for page in PAGES:
        words, most = len(text_of(page).split()), WORDS_AT_MOST.get(page, 700)
        if (page.startswith("crates/") or page in WORDS_AT_MOST) and words > most:
            yield f"{page}: {words} words, {most} wanted"


def missing_words():
    for page in ("docs/sgt.1", *COMPLETIONS):
        text = re.sub(r"\\f[A-Z]", " ", text_of(page).replace("\\-", "-")).replace("Fl -", "--").replace("| -", "| --").replace(" -l ", " --")
        for word in commands() + options():
            if not re.search(rf"(?<![\w-]){re.escape(word)}(?![\w-])", text):
                yield f"{page}: nothing of {word}"
    for page in COMPLETIONS:
        for word in set(topics()) - set(text_of(page).replace("'", " ").split()):
            yield f"{page}: nothing of {word}"
    for word in commands():
        if f"`sgt {word}" not in text_of("README.md"):
            yield f"README.md: nothing of sgt {word}"
    for status in statuses():
        if f"\n| {status} |" not in text_of("README.md"):
            yield f"README.md: nothing of status {status}"
        if f"\n.It {status}\n" not in text_of("docs/sgt.1"):
            yield f"docs/sgt.1: nothing of status {status}"


def more_words():
    """Commands, options and statuses that a page has and the code doesn't."""
    page = text_of("README.md")
    for word in sorted(set(re.findall(r"^\| `sgt (\w+)", page, flags=re.M)) - set(commands())):
        yield f"README.md: there is no command {word}"
    for status in sorted(set(re.findall(r"^\| (\d) \|", page, flags=re.M)) - set(statuses())):
        yield f"README.md: there is no status {status}"
    manual = text_of("docs/sgt.1")
    told = {word for line in re.findall(r"^\.It Cm (.*)$", manual, flags=re.M) for word in line.split()}
    for word in sorted(told - {*commands(), *rewritten()}):
        yield f"docs/sgt.1: there is no command {word}"
    for word in sorted({f"-{word}" for word in re.findall(r"Fl (-[\w-]+)", manual)} - set(options())):
        yield f"docs/sgt.1: there is no option {word}"
    known = {*options(), *commands(), *rewritten(), *topics(), "-q", "-o"}
    for word in sorted(completed() - known):
        yield f"docs/sgt.bash: {word} is no word of a command line"
    for word in sorted(known - completed()):
        yield f"docs/sgt.bash: nothing of {word}"


def other_counts():
    """What PROOFS.md says of how many functions ask something, and how many lines the headline rests on."""
    told = [int(number.replace(",", "")) for number in re.findall(r"\b\d[\d,]*\b", text_of("docs/PROOFS.md"))]
    for program in ("count_requires", "count_headline"):
        ran = subprocess.run([sys.executable, f"bench/pages/{program}.py"], capture_output=True, text=True, check=True)
        numbers = re.findall(r"\d+", ran.stdout.splitlines()[-1])
        for number in numbers if program == "count_requires" else numbers[:1]:
            if int(number) not in told:
                yield f"docs/PROOFS.md: {program}.py counts {number}"


def other_scripts():
    """Scripts that bench/README.md doesn't have in the table of their folder, and rows of it that are no script."""
    for part in re.split(r"^## ", text_of("bench/README.md"), flags=re.M)[1:]:
        home = f"bench/{part.split(':')[0]}"
        told = {f"{home}/{name}" for name in re.findall(r"^\| `([^`]*)`", part, flags=re.M)}
        there = {path for path in glob.glob(f"{home}/**/*.*", recursive=True) if path.endswith((".py", ".c"))}
        for path in sorted(there - told):
            yield f"bench/README.md: nothing of {path}"
        for path in sorted(told):
            if not os.path.exists(path):
                yield f"bench/README.md: there is no {path}"


def shown_commands():
    """Of each block with commands: its page, and each command with what is shown below it."""
    for page in PAGES:
        for block in re.findall(r"^```\w*\n(.*?)^```$", text_of(page), flags=re.M | re.S):
            parts = re.split(r"^\$ (.*)\n", block, flags=re.M)
            if len(parts) > 1 and not parts[0]:
                yield page, list(zip(parts[1::2], parts[2::2]))


def other_outputs(program):
    """Commands that print something else than their page shows. Each page's run in one folder; `examples/run.sh`, which builds, isn't."""
    path = os.pathsep.join([os.path.dirname(os.path.abspath(program)), os.environ["PATH"]])
    top, folders, count = os.getcwd(), {}, 0
    with tempfile.TemporaryDirectory() as folder:
        for page, commands_shown in shown_commands():
            home = folders.setdefault(page, os.path.join(folder, str(len(folders))))
            os.makedirs(home, exist_ok=True)
            for name in ("bench", "crates", "docs", "examples"):
                if not os.path.exists(os.path.join(home, name)):
                    os.symlink(os.path.join(top, name), os.path.join(home, name))
            for command, shown in commands_shown:
                if command == "examples/run.sh":
                    continue
                name = re.fullmatch(r"cat (\w+)", command)
                if name and not os.path.exists(os.path.join(home, name[1])):
                    with open(os.path.join(home, name[1]), "w", encoding="utf-8") as file:
                        file.write(shown)
                ran = subprocess.run(command, shell=True, cwd=home, env={**os.environ, "PATH": path}, capture_output=True, check=False)
                count += 1
                if ran.stdout.decode() != shown or ran.stderr:
                    yield f"{page}: {command}: {ran.stdout.decode()}{ran.stderr.decode()}"
    print(f"{count} commands were run")


def main():
    if len(sys.argv) > 2 or "--help" in sys.argv:
        sys.exit(__doc__)
    looks = (dead_links, dead_paths, long_pages, missing_words, more_words, other_counts, other_scripts)
    found = [line for look in looks for line in look()]
    if len(sys.argv) > 1:
        found += other_outputs(sys.argv[1])
    print("\n".join([*found, f"{len(PAGES)} pages, {len(found)} found"]))
    sys.exit(bool(found))


if __name__ == "__main__":
    main()
