#!/usr/bin/env python3
"""make_completions.py [--check]: writes tlbox.bash, _tlbox and tlbox.1, the completions for bash and zsh and the man page, beside itself.

They are made from the table of commands in the sources, with its ranges of numbers and its statuses, so they can't differ from it. A command, an operand
or a status of which no text stands below is an error, and so is a text of none. With --check nothing is written: it tells each file that
differs, and ends with status 1 where one does.
"""
import os, re, sys

sys.dont_write_bytecode = True
from command_table import ROOT, Differs, read, rows

HERE = os.path.dirname(os.path.realpath(__file__))
MADE = "Made by contrib/make_completions.py from the table of commands: change that, and run it."

# Each command: what completions say of it, and what the man page adds.
COMMANDS = {
    "check": ("list the declarations of a schema", "Each declaration with its number, or where and why the text is no schema."),
    "decode": ("print the value that bytes spell", "One line of JSON, or where and why INPUT is no value of TYPE."),
    "encode": ("write the bytes of a value given as JSON", "INPUT is JSON in the form that decode prints, with white space and keys in any order."),
    "replay": ("make the steps of a journal", "A line for each step, and at the end what each client has of the server's boxes."),
    "make": ("make a run that a number draws", "The summary of a run of STEPS steps with two clients."),
    "serve": ("serve the protocol over TCP", "A server with empty boxes serves SESSIONS connections, one after the other, and writes a line for each."),
    "post": ("send one call to a server", "INPUT is the call, as JSON. The reply is printed as JSON."),
    "client": ("bring a saved client up to date", "The client of the file STATE asks a server for all that is new, and is saved. An empty file is a new client."),
    "layers": ("tell whether a new schema reads old bytes", "Whether NEW reads all bytes that values of TYPE had under OLD, or what breaks them first."),
    "calls": ("tell calls and their answers", "What the packets of a file are, each answer in the type that its call is answered in."),
    "keep": ("serve, and keep what is posted", "As serve, from the posts that the database FILE has, and each new one is added to it. An empty file, or none, has none."),
}
OPERANDS = {
    "SCHEMA": "a file with a schema's text",
    "TYPE": "a type of the schema as it stands after a colon in a field, or ! for a call of any function; in quotes where it has < and > in it",
    "INPUT": "a file: bytes for decode and calls, JSON for encode and post",
    "JOURNAL": "a file of steps",
    "CLIENTS": "how many clients there are",
    "NUMBER": "what the run is drawn from",
    "STEPS": "how many steps are made",
    "ADDRESS": "HOST:PORT",
    "SESSIONS": "how many connections are served",
    "STATE": "the file of a saved client",
    "CHANNEL ..": "the channels that are watched besides those of STATE",
    "OLD": "a file with the schema that was",
    "NEW": "a file with the schema that is",
    "FILE": "a database of posts, which is made where there is none",
}
RANGES = {"CLIENTS": "clients_range", "NUMBER": "run_range", "STEPS": "steps_range", "SESSIONS": "sessions_range", "CHANNEL ..": "channel_range"}
FILES = ("SCHEMA", "INPUT", "JOURNAL", "STATE", "OLD", "NEW", "FILE")
STATUSES = {
    "Done": "The answer stands on standard output.",
    "Refused": "A file, TYPE or the words are refused: what, where and why stands on standard error.",
    "Usage": "The words are no row of the usage line, which stands on standard error.",
    "ReadFault": "A file can't be read.",
    "WriteFault": "Output can't be written, or the state file.",
    "Memory": "Memory was refused.",
    "LinkFault": "A link could not be made, or failed.",
    "PeerFault": "The other end of a link did something wrong.",
    "KeepFault": "The database of posts can't be opened, read or written.",
}
# The types that constructors make, and the constructors, bare, in a text with a space on each side of each `=`. Comments are left out first. Names alone
# are let through: bash expands what it completes to.
TYPES = r"""awk '
        BEGIN { RS = "\001" }
        { text = text $0 }
        END {
            while (match(text, "//|/[*]")) {
                mark = substr(text, RSTART, 2)
                printf "%s ", substr(text, 1, RSTART - 1)
                text = substr(text, RSTART + 2)
                end = mark == "//" ? index(text, "\n") : index(text, "*/")
                text = end ? substr(text, end + (mark == "//" ? 0 : 2)) : ""
            }
            print text
        }' 2>/dev/null < "$1" | awk '
        BEGIN { RS = ";"; name_alone = "^[A-Za-z][A-Za-z0-9_.]*$" }
        {
            name = ""
            for (i = 1; i <= NF; i++) {
                if ($i ~ /---functions---/) functions = 1
                else if ($i ~ /---types---/) functions = 0
                else if (name == "") { name = $i; sub(/#.*/, "", name); if (name ~ /^(int|long|double|string|bytes|int128|int256|vector)$/) next }
                else if ($i == "=" && !functions && $(i + 1) ~ name_alone) { print $(i + 1); if (name ~ name_alone) print name }
            }
        }' | sort -u"""


def ranges():
    """The least and the most of each operand that is a number."""
    text = read("crates/commands/specs/Requests.antt")
    found = {name: re.search(rf"^{term} = record {{ digits = \d+; least = (\d+); most = (\d+) }}$", text, re.MULTILINE) for name, term in RANGES.items()}
    if None in found.values():
        raise Differs("a range in crates/commands/specs/Requests.antt has another form")
    return {name: (int(match[1]), int(match[2])) for name, match in found.items()}


def statuses():
    found = dict(re.findall(r"^status_number (\w+) = (\d+)$", read("crates/outside/specs/Answer.antt"), re.MULTILINE))
    found |= dict(re.findall(r"^kept_number (\w+) = (\d+)$", read("crates/serve_rooms/specs/Status.antt"), re.MULTILINE))
    if set(found) != set(STATUSES):
        raise Differs(f"statuses without a text, or texts without a status: {sorted(set(found) ^ set(STATUSES))}")
    return {int(number): STATUSES[name] for name, number in found.items()}


def bash(table, limits):
    cases = "\n".join(f"    {command}) operands=({' '.join(repr(o) if ' ' in o else o for o in operands)}) ;;" for command, operands in table.items())
    least, most = limits["CLIENTS"]
    return f"""# Completion of tlbox for bash: source this file. {MADE}

_tlbox_types() {{
    {TYPES}
    echo '!'
}}

_tlbox() {{
    local IFS=$'\\n' words=() word operands operand schema
    COMPREPLY=()
    # bash parts words at a colon, as in HOST:PORT: they are joined again.
    for word in "${{COMP_WORDS[@]:0:COMP_CWORD + 1}}"; do
        if [[ ${{#words[@]}} -gt 0 && -n $word && (${{word:0:1}} == : || ${{words[${{#words[@]}} - 1]: -1}} == :) ]]; then
            words[${{#words[@]}} - 1]+=$word
        else
            words+=("$word")
        fi
    done
    if [[ ${{#words[@]}} -eq 2 ]]; then
        COMPREPLY=($(IFS=' ' && compgen -W '{' '.join(table)}' -- "$word"))
        return
    fi
    case ${{words[1]}} in
{cases}
    *) return ;;
    esac
    operand=${{operands[${{#words[@]}} - 3]}}
    case $operand in
    {' | '.join(FILES)}) COMPREPLY=($(compgen -f -- "$word")) ;;
    TYPE)
        # xargs takes quotes and backslashes away, and expands nothing.
        schema=$(printf '%s\\n' "${{words[2]}}" | xargs -n 1 printf '%s' 2>/dev/null)
        COMPREPLY=($(compgen -W "$(_tlbox_types "${{schema/#~\//$HOME/}}")" -- "$word"))
        ;;
    CLIENTS) COMPREPLY=($(IFS=' ' && compgen -W '{' '.join(str(n) for n in range(least, most + 1))}' -- "$word")) ;;
    esac
}}

complete -o filenames -F _tlbox tlbox
"""


def zsh(table, limits):
    commands = "\n".join(f"        '{command}:{COMMANDS[command][0]}'" for command in table)
    cases = "\n".join(f"    {command}) operands=({' '.join(repr(o) if ' ' in o else o for o in operands)}) ;;" for command, operands in table.items())
    said = "\n".join(
        f"    '{name}') _message '{text}{', %d to %d' % limits[name] if name in limits else ''}' ;;"
        for name, text in OPERANDS.items() if name not in (*FILES, "TYPE")
    )
    return f"""#compdef tlbox
# Completion of tlbox for zsh: put this file into a folder of $fpath. {MADE}

_tlbox_types() {{
    {TYPES}
    echo '!'
}}

_tlbox() {{
    local -a commands operands
    local operand
    commands=(
{commands}
    )
    if (( CURRENT == 2 )); then
        _describe command commands
        return
    fi
    case $words[2] in
{cases}
    *) return ;;
    esac
    operand=$operands[CURRENT-2]
    # The last operand may be one of which there are any number.
    [[ -z $operand && $operands[-1] == *.. ]] && operand=$operands[-1]
    case $operand in
    {'|'.join(FILES)}) _files ;;
    TYPE) compadd -- ${{(f)"$(_tlbox_types ${{(Q)words[3]}})"}} ;;
{said}
    esac
}}

_tlbox "$@"
"""


def man(table, limits):
    """The man page. In it a line begins with no dot or apostrophe but those of its own requests."""
    lines = [f'.\\" {MADE}', '.TH TLBOX 1 "" tlbox "User Commands"', ".SH NAME", "tlbox \\- tell what a TL schema, its values and its updates are"]
    row = {command: " ".join([f"\\fB{command}\\fR", *(f"\\fI{o}\\fR" if o[-1] != "." else f"[\\fI{o}\\fR]" for o in operands)]) for command, operands in table.items()}
    lines += [".SH SYNOPSIS", ".nf", *(f"\\fBtlbox\\fR {row[command]}" for command in table), ".fi"]
    lines += [".SH DESCRIPTION"]
    lines += ["A toolchain for the TL language of Telegram, and for updates in a layout of this project's own, which talks to no server of Telegram."]
    lines += ["A file is named by its path; /dev/stdin is standard input. No operand is empty or begins with a dash."]
    lines += [".SH COMMANDS"]
    for command in table:
        lines += [".TP", row[command], f"{COMMANDS[command][0][0].upper()}{COMMANDS[command][0][1:]}. {COMMANDS[command][1]}"]
    lines += [".SH OPERANDS"]
    for name, text in OPERANDS.items():
        lines += [".TP", f"\\fI{name}\\fR", text + (", %d to %d" % limits[name] if name in limits else "")]
    lines += [".SH EXIT STATUS"]
    for number, text in sorted(statuses().items()):
        lines += [".TP", f"\\fB{number}\\fR", text]
    lines += [".SH EXAMPLES", ".nf"]
    lines += ["tlbox check notes.tl", "tlbox decode notes.tl \\(aqVector<Note>\\(aq notes.bin", "tlbox encode notes.tl Note note.json > note.bin"]
    lines += [".fi", ".SH SEE ALSO", "The pages in docs/ of the sources: SHELL.md, PLACES.md and ERRORS.md, which has each line on standard error with its cause."]
    return "\n".join(lines) + "\n"


def main(words):
    table = rows()
    named = {operand for operands in table.values() for operand in operands}
    if list(table) != list(COMMANDS) or named != set(OPERANDS):
        raise Differs(f"texts and rows differ: {sorted(set(table) ^ set(COMMANDS) | named ^ set(OPERANDS)) or 'in their order'}")
    limits, differ = ranges(), False
    for name, text in (("tlbox.bash", bash(table, limits)), ("_tlbox", zsh(table, limits)), ("tlbox.1", man(table, limits))):
        path = f"{HERE}/{name}"
        if words == ["--check"]:
            with open(path, encoding="utf-8") as file:
                if file.read() != text:
                    print(f"{os.path.relpath(path, ROOT)} isn't what make_completions.py writes")
                    differ = True
        else:
            with open(path, "w", encoding="utf-8") as file:
                file.write(text)
    return 1 if differ else 0


if __name__ == "__main__":
    try:
        sys.exit(main(sys.argv[1:]))
    except (Differs, OSError) as fault:
        sys.exit(f"make_completions.py: {fault}")
