"""The options and the exit codes that documents tell of are those of the code."""
import glob
import os
import re
import subprocess

from documents.repository import TOP, documents, found, lines_of, read, sources, table_rows


def options_in_code():
    """Returns the options of each command, by the table from which they are built for clap."""
    said, command = {}, None
    for sub, name, kind in re.findall(r"name: \"([a-z]+)\"|\(\"([a-z-]+)\", Kind::(\w+)\)", sources("pir_words")):
        if sub:
            command = said.setdefault(sub, set())
        elif command is not None and kind not in ("Operand", "Operands"):
            command.add(name)
    return said


def options_of_lists():
    """Returns the options of each command of pir_list, by the table from which they are built for clap."""
    text = sources("list_words")
    lists = {name: set(re.findall(r"name: \"([a-z-]+)\",\s*kind: Kind::(?:Required|Optional|Flag)", rows)) for name, rows in re.findall(r"const ([A-Z]+): &\[Argument.*?= &\[(.*?)\n\];", text, re.S)}
    return {command: lists.get(name, set()) for command, name in re.findall(r"name: \"([a-z]+)\",\s*about: [^\n]*\s*arguments: ([A-Z]+)", text)}


def flags_of_lists():
    """Returns the options of pir_list that have no value."""
    return set(re.findall(r"name: \"([a-z-]+)\",\s*kind: Kind::Flag", sources("list_words")))


def completed(program, *words):
    """Returns what tools/pir.bash offers for the last of these words of a program."""
    script = 'source "$1"; shift; COMP_WORDS=("$@") COMP_CWORD=$(($# - 1)); "_$1"; printf "%s\\n" "${COMPREPLY[@]}"'
    words = (program, *words)
    ran = subprocess.run(["bash", "-c", script, "bash", f"{TOP}/tools/pir.bash", *words], stdin=subprocess.DEVNULL, stdout=subprocess.PIPE, text=True)
    return set(ran.stdout.split())


def look_at_completions(program, said, flags, compare):
    """Compares what bash is told to offer of a program with its commands and their options."""
    where = "tools/pir.bash"
    offered = {it for it in completed(program, "") if not it.startswith("--")} - {"help"}
    if offered != set(said):
        found.bad(where, f"{program}: it offers the commands {', '.join(sorted(offered))}, and there are {', '.join(sorted(said))}")
    for command in sorted(said):
        compare(where, command, {it[2:] for it in completed(program, command, "--")} - {"help"})
        for it in sorted(said[command]):
            # (behind an option with a value comes that value)
            if bool(completed(program, command, f"--{it}", "--") - {"--help"}) != (it in flags and len(said[command]) > 1):
                found.bad(where, f"{program} {command} --{it}: {'no option is' if it in flags else 'options are'} offered behind it")


def look_at_options():
    said = options_in_code()
    if not said:
        found.bad("crates/pir_words", "docs/check finds no command there")
        return

    def compare(where, command, told):
        for it in sorted(told - said.get(command, set())):
            found.bad(where, f"{command} has no option --{it}")
        for it in sorted(said.get(command, set()) - told):
            found.bad(where, f"{command} has an option --{it}, which isn't told of")

    # the man page: its synopsis and its list of each command
    part, sub, synopsis, listed = "", "", {}, {}
    for number, line in lines_of("docs/pir.1"):
        if line.startswith(".Sh "):
            part, sub = line[4:], ""
        elif line.startswith(".Ss "):
            sub = line[4:]
            if part == "COMMANDS" and sub in said:
                listed.setdefault(sub, set())
        elif part == "SYNOPSIS":
            named = re.match(r"\.Cm (\w+)", line)
            sub = named[1] if named else sub
            if sub:
                synopsis.setdefault(sub, set()).update(re.findall(r"Fl -([a-z-]+)", line))
        elif part == "COMMANDS" and sub in said and line.startswith(".It "):
            listed[sub].update(re.findall(r"Fl -([a-z-]+)", line))
    for command in sorted(set(said) | set(synopsis) | set(listed)):
        if command not in said:
            found.bad("docs/pir.1", f"there is no command {command}")
            continue
        compare("docs/pir.1, SYNOPSIS", command, synopsis.get(command, set()))
        compare("docs/pir.1, COMMANDS", command, listed.get(command, set()))
    # the specification
    text, told = read("docs/SPECIFICATION.md"), {}
    for words in re.findall(r"`pir ([a-z]+(?: [^`]*)?)`", text):
        told.setdefault(words.split()[0], set()).update(re.findall(r"--([a-z-]+)", words))
    for command in sorted(set(said) | set(told)):
        compare("docs/SPECIFICATION.md, Commands", command, told.get(command, set()))
    look_at_completions("pir", said, set(re.findall(r"\(\"([a-z-]+)\", Kind::Flag\)", sources("pir_words"))), compare)
    # those of pir_list, in the specification and in what bash offers
    lists = options_of_lists()

    def compare_lists(where, command, told):
        for it in sorted(lists.get(command, set()) ^ told):
            found.bad(where, f"pir_list {command}: --{it} is in the code or here, and not in both")

    look_at_completions("pir_list", lists, flags_of_lists(), compare_lists)
    told = {cells[0].strip("`"): set(re.findall(r"--([a-z-]+)", " ".join(cells))) for _, cells in table_rows("docs/SPECIFICATION.md", "Words of `pir_list`") if cells[0].startswith("`")}
    for command in sorted(set(lists) | set(told)):
        for it in sorted(lists.get(command, set()) ^ told.get(command, set())):
            found.bad("docs/SPECIFICATION.md, Words of `pir_list`", f"{command}: --{it} is in the code or here, and not in both")
    # any command line of a document, and any option that is named by itself; scripts of the repository have options too
    scripts = [it for folder in ("bench/*.py", "docs/checks/*", "examples/*-*", "tools/[!_]*") for it in glob.glob(f"{TOP}/{folder}") if os.path.isfile(it) and not it.endswith(".session")] + [f"{TOP}/docs/check"]
    known = {"help", "version"}.union(*said.values(), *lists.values(), *(re.findall(r"[\"']--([a-z-]+)", read(os.path.relpath(it, TOP))) for it in scripts))
    for path in documents():
        if path.endswith(".1"):
            continue
        text = re.sub(r"\\\n\s*", " ", read(path))
        for line in re.findall(rf"(?:\./|`|\s)pir ((?:{'|'.join(said)}) [^`\n|]*)", text):
            command = line.split()[0]
            for it in sorted(set(re.findall(r"(?<!\S)\[?--([a-z-]+)", line)) - said.get(command, set())):
                found.bad(path, f"{command} has no option --{it}: pir {line.strip()[:60]}")
        for it in re.findall(r"`--([a-z-]+)[^`\n]*`", text):
            if it not in known:
                found.bad(path, f"no command has an option --{it}")
    found.note(f"{sum(map(len, said.values()))} options of {len(said)} commands")


def look_at_codes():
    text = sources("commands")
    code = dict(re.findall(r"Status::(\w+)(?:\([^)]*\)|\s*\{[^}]*\})?\s*=> (\d+)", text))
    line = dict(re.findall(r"Status::(\w+)(?:\([^)]*\)|\s*\{[^}]*\})?\s*=> \"([^\"]+)\"", text))
    lines = {int(number): line.get(name, "") for name, number in code.items()}
    if len(lines) < 5:
        found.bad("crates/commands", "docs/check finds no table of exit codes there")
        return

    def compare(where, told):
        for it in sorted(set(told) - set(lines)):
            found.bad(where, f"no run ends with {it}")
        for it in sorted(set(lines) - set(told)):
            found.bad(where, f"a run can end with {it}, which isn't told of")

    told = {}
    for number, cells in table_rows("docs/SPECIFICATION.md", "Commands"):
        if len(cells) == 3 and re.fullmatch(r"\d+", cells[0]):
            told[int(cells[0])] = number
            said = "".join(re.findall(r"`(pir: [^`]*)`", cells[2]))
            if said != lines.get(int(cells[0]), ""):
                found.bad(f"docs/SPECIFICATION.md:{number}", f"the line of {cells[0]} is {lines.get(int(cells[0])) or 'none'}, and not {said or 'none'}")
    compare("docs/SPECIFICATION.md, exit codes", told)
    rows = [int(it) for _, cells in table_rows("README.md", "Exit codes") for it in re.findall(r"\d+", cells[0])]
    compare("README.md, exit codes", rows)
    part, now, told = "", None, {}
    for number, text in lines_of("docs/pir.1"):
        if text.startswith(".Sh "):
            part, now = text[4:], None
        elif part == "EXIT STATUS" and re.match(r"\.It \d+\Z", text):
            now = int(text[4:])
            told[now] = (number, "")
        elif part == "EXIT STATUS" and now is not None and text.startswith(".Ql pir:"):
            told[now] = (told[now][0], re.sub(r" [.,:]\Z", "", text[4:]))
    compare("docs/pir.1, EXIT STATUS", told)
    for it, (number, said) in told.items():
        if it in lines and said != lines[it]:
            found.bad(f"docs/pir.1:{number}", f"the line of {it} is {lines[it] or 'none'}, and not {said or 'none'}")
    found.note(f"{len(lines)} exit codes")
