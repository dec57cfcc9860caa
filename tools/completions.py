#!/usr/bin/env python3
"""Writes the completions of the programs' words for bash, zsh and fish, below packaging/completions.

    tools/completions.py            writes them
    tools/completions.py --check    says which are not as the sources have them, with status 1

The words are those of `--help`: modes and options of the programs' help, and the names of the table of formats. In the place of an
assumed offset the zones are offered that the machine's zone.tab lists, where the word begins with a capital letter.
"""

import argparse
import re
import sys

sys.dont_write_bytecode = True

from program import ROOT, sure

FOLDER = ROOT / "packaging" / "completions"
HELP = ROOT / "crates" / "instants_lines_program" / "src" / "help.rt"
FORMATS = ROOT / "crates" / "instants_formats" / "src" / "table.rt"
WORDS = ROOT / "crates" / "instants_words" / "src" / "pieces.rt"
MERGE = ROOT / "instants-merge"
LANGUAGES = ("v1", "v2", "v3", "strftime")
SOURCES = ("rfc3339", "rfc2822", "iso8601", *LANGUAGES)

BASH = r"""# Made by tools/completions.py: the words of instants(1), instants-lines(1), instants-merge(1) and description_check(1).

_instants()
{
    local word=${COMP_WORDS[COMP_CWORD]} before=${COMP_WORDS[COMP_CWORD - 1]} place=$COMP_CWORD words=
    # (an offset has a colon, at which bash may cut words)
    if declare -F _get_comp_words_by_ref > /dev/null; then
        _get_comp_words_by_ref -n : -c word -p before -i place
    fi
    # (a zone begins with a capital letter)
    case ${COMP_WORDS[0]##*/}:$before:$place:$word in
        description_check:*:1:*) words='LANGUAGES' ;;
        description_check:*) ;;
        instants-merge:-f:*) words='guess SOURCES FORMATS' ;;
        instants-merge:-[aytl]:* | instants-merge:--since:* | instants-merge:--until:*) ;;
        instants-merge:*)
            case $word in
                -*) words='MERGES' ;;
                *) compopt -o default 2> /dev/null ;;
            esac
            ;;
        # (a description stands here, or what follows a name as year)
        *:v[123]:* | *:strftime:* | *:year:* | *:time:* | *:field:* | *:column:* | *:separator:* | *:label:*) ;;
        instants:*:1:*) words='+00:00' ;;
        instants:*:2:*) words='- +00:00' ;;
        instants:*:3:*) words='100 LIMIT' ;;
        instants:*) words='SOURCES' ;;
        *:1:* | *:-q:* | *:--count:*) words='MODES OPTIONS' ;;
        *:3:[[:upper:]]*) words=$(ZONES | cut -f3) ;;
        *:[2345]:*) words='+00:00 - 64 LIMIT year time field column separator label SOURCES FORMATS' ;;
        *) words='year time field column separator label SOURCES FORMATS' ;;
    esac
    mapfile -t COMPREPLY < <(compgen -W "$words" -- "$word")
    if declare -F __ltrim_colon_completions > /dev/null; then
        __ltrim_colon_completions "$word"
    fi
}

complete -F _instants instants instants-lines instants-merge description_check
"""

ZSH = r"""#compdef instants instants-lines instants-merge description_check
# Made by tools/completions.py: the words of instants(1), instants-lines(1), instants-merge(1) and description_check(1).

local before=$words[CURRENT-1] place=$((CURRENT - 1)) name=${words[1]:t}
local -a found
case $name:$before:$place in
    description_check:*:1) found=(LANGUAGES) ;;
    description_check:*) ;;
    instants-merge:-f:*) found=(guess SOURCES FORMATS) ;;
    instants-merge:-[aytl]:* | instants-merge:--since:* | instants-merge:--until:*) ;;
    instants-merge:*) if [[ $PREFIX == -* ]]; then found=(MERGES); else _files; fi ;;
    *:v[123]:* | *:strftime:* | *:year:* | *:time:* | *:field:* | *:column:* | *:separator:* | *:label:*) ;;
    instants:*:1) found=(+00:00) ;;
    instants:*:2) found=(- +00:00) ;;
    instants:*:3) found=(100 LIMIT) ;;
    instants:*) found=(SOURCES) ;;
    *:1 | *:-q:* | *:--count:*) found=(MODES OPTIONS) ;;
    *:3)
        # (a zone begins with a capital letter)
        if [[ $PREFIX == [[:upper:]]* ]]; then
            found=(${(f)"$(ZONES | cut -f3)"})
        else
            found=(+00:00 - 64 LIMIT year time field column separator label SOURCES FORMATS)
        fi
        ;;
    *:[245]) found=(+00:00 - 64 LIMIT year time field column separator label SOURCES FORMATS) ;;
    *) found=(year time field column separator label SOURCES FORMATS) ;;
esac
compadd -- $found
"""

FISH = r"""# Made by tools/completions.py: the words of instants(1), instants-lines(1), instants-merge(1) and description_check(1).

function __instants_words
    set -l before (commandline -opc)
    set -l place (count $before)
    set -l name (string replace -r '.*/' '' -- $before[1])
    switch "$name:$before[-1]:$place"
        case 'description_check:*:1'
            set found LANGUAGES
        case 'description_check:*'
            return
        case 'instants-merge:-f:*'
            set found guess SOURCES FORMATS
        case '*:v1:*' '*:v2:*' '*:v3:*' '*:strftime:*' '*:year:*' '*:time:*' '*:field:*' '*:column:*' '*:separator:*' '*:label:*'
            return
        case 'instants:*:1'
            set found +00:00
        case 'instants:*:2'
            set found - +00:00
        case 'instants:*:3'
            set found 100 LIMIT
        case 'instants:*'
            set found SOURCES
        case '*:1' '*:-q:*' '*:--count:*'
            set found MODES OPTIONS
        case '*:2' '*:3' '*:4' '*:5'
            set found +00:00 - 64 LIMIT year time field column separator label SOURCES FORMATS
            # (a zone begins with a capital letter)
            if test $place = 3; and string match -qr '^[A-Z]' -- (commandline -ct)
                set -q TZDIR; or set -l TZDIR /usr/share/zoneinfo
                set found (cat $TZDIR/zone.tab 2> /dev/null | string match -v '#*' | cut -f3)
            end
        case '*'
            set found year time field column separator label SOURCES FORMATS
    end
    printf '%s\n' $found
end

for name in instants instants-lines description_check
    complete -c $name -f -a '(__instants_words)'
end
complete -c instants-merge -s f -x -a '(__instants_words)'
"""


def of_help() -> dict[str, str]:
    """Returns the words for each name in the templates."""
    text, lines = HELP.read_text(), MERGE.read_text()
    modes = sure(re.search(r"^    MODE( .*?)^    TARGET", text, re.M | re.S))[1]
    merges = sure(re.search(r"^help\(\) \{(.*?)^\}", lines, re.M | re.S))[1]
    options = re.findall(r"^    (--?[a-z]+) ", text, re.M)
    return {
        "LANGUAGES": " ".join(LANGUAGES),
        "SOURCES": " ".join(SOURCES),
        "FORMATS": " ".join(re.findall(r'^        name: "(.*)",$', FORMATS.read_text(), re.M)),
        "MODES": " ".join([*re.findall(r"^(?: {9,22}| {5})([a-z]+) {2,}", modes, re.M), "guess"]),
        "OPTIONS": " ".join([*options, "--help", "--version"]),
        "ZONES": "grep -v '^#' \"${TZDIR:-/usr/share/zoneinfo}/zone.tab\" 2> /dev/null",
        "MERGES": " ".join(dict.fromkeys([*re.findall(r"(?:^    |, )(--?[a-z]+)\b", merges, re.M), "--help", "--version"])),
        "LIMIT": sure(re.search(r"^const GREATEST_LIMIT: u32 = (\d[\d_]*);", WORDS.read_text(), re.M))[1].replace("_", ""),
    }


def files() -> dict[str, str]:
    """Returns the text of each file of completions, by its name."""
    words = of_help()
    merges = "".join(
        f"complete -c instants-merge -l {it[2:]}\n" if it.startswith("--") else f"complete -c instants-merge -s {it[1:]}\n"
        for it in words["MERGES"].split() if it != "-f"
    )  # fmt: skip
    texts = {"instants.bash": BASH, "_instants": ZSH, "instants.fish": FISH + merges}
    return {name: re.sub(rf"\b(?:{'|'.join(words)})\b", lambda it: words[str(it[0])], text) for name, text in texts.items()}


def main() -> int:
    parser = argparse.ArgumentParser(description=__doc__, formatter_class=argparse.RawDescriptionHelpFormatter)
    parser.add_argument("--check", action="store_true", help="write nothing")
    is_check, status = parser.parse_args().check, 0
    for name, text in files().items():
        file = FOLDER / name
        if not file.is_file() or file.read_text() != text:
            status = 1
            if is_check:
                print(f"{file.relative_to(ROOT)} is not as tools/completions.py writes it")
            else:
                file.write_text(text)
    if is_check and not status:
        print("the completions are as the sources have them")
    return status if is_check else 0


if __name__ == "__main__":
    sys.exit(main())
