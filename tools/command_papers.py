"""The help, the man page, the completions for bash and a highlighter for Vim, made from the table of tools/command_table.py.

usage: command_papers.py            writes tools/nestrun.1, tools/nestrun.bash and tools/nest.vim anew
       command_papers.py --help     prints the help of ./nestrun

`man tools/nestrun.1` shows the page; `. tools/nestrun.bash` gives a shell the completions; `:source tools/nest.vim` gives a
Vim that shows a nest file its colours.
"""
import os
import sys
import textwrap

sys.dont_write_bytecode = True
HERE = os.path.dirname(os.path.abspath(__file__))
sys.path.insert(0, HERE)
import nest_text
from command_table import EXAMPLES, EXITS, MODES, OPTIONS, OWN, Number

SYNOPSIS = "./nestrun [--quiet] [--unproved] MODE [ARGUMENTS] [OPTIONS] [FILE]"
ABOUT = "Runs a nest file (docs/LANGUAGE.md), which is FILE or stands on standard input. The answer goes to standard output."
PLACES = "An option may stand anywhere, as --chunk 8 or --chunk=8, and once; behind -- there are no options."


def range_of(argument):
    if isinstance(argument, Number):
        return f"{argument.name} {argument.least:,} to {argument.most:,}"
    return f"{argument.name} {', '.join(argument.words[:-1])} or {argument.words[-1]}"


def mode_rows():
    for mode in MODES:
        yield " ".join([mode.name, *[it.name for it in mode.arguments]]), mode.writes + "".join(f"; {range_of(it)}" for it in mode.arguments)


def option_rows():
    for it in OPTIONS:
        yield f"--{it.name} N", f"{it.says}: {it.least:,} to {it.most:,}, {it.default:,} where it isn't given ({it.modes})"


def own_rows():
    for name, says in OWN:
        yield f"--{name}", says


def exit_rows():
    for number, says in EXITS:
        yield str(number), says


CHAPTERS = [("MODE, and what it writes", mode_rows), ("Options", option_rows), ("Before MODE", own_rows), ("Exits", exit_rows)]


def help_text():
    lines = [f"usage: {SYNOPSIS}", "", *textwrap.wrap(ABOUT, 100), *textwrap.wrap(PLACES, 100)]
    for title, rows in CHAPTERS:
        lines += ["", f"{title}:"]
        for name, says in rows():
            first, *rest = textwrap.wrap(says, 80)
            lines += [f"  {name:<20} {first}", *[" " * 23 + it for it in rest]]
    lines += ["", "Examples:"]
    for words, says in EXAMPLES:
        lines += [f"  {words}", f"      {says}"]
    return "\n".join(lines) + "\n"


def roff(text):
    return text.replace("\\", "\\\\").replace("-", "\\-").replace("`", "'")


def man_page():
    lines = ['.TH NESTRUN 1 "" "nestrun" "nestrun"', ".SH NAME", "nestrun \\- a run\\-time loop optimizer whose promises are proved"]
    lines += [".SH SYNOPSIS", roff(SYNOPSIS), ".SH DESCRIPTION", roff(ABOUT), roff(PLACES)]
    for title, rows in CHAPTERS:
        lines.append(f".SH {title.upper()}")
        for name, says in rows():
            lines += [".TP", f".B {roff(name)}", roff(says)]
    lines.append(".SH EXAMPLES")
    for words, says in EXAMPLES:
        lines += [".TP", f".B {roff(words)}", roff(says)]
    lines += [".SH SEE ALSO", roff("docs/LANGUAGE.md: files, each mode, and each line that is written. tools/journey shows a run as a picture.")]
    return "\n".join(lines) + "\n"


def completions():
    modes = " ".join(it.name for it in MODES)
    options = " ".join(f"--{it.name}" for it in OPTIONS)
    own = " ".join(f"--{name}" for name, _ in OWN)
    cases = []
    for mode in MODES:
        for at, argument in enumerate(mode.arguments, 1):
            if not isinstance(argument, Number):
                cases.append(f'    {mode.name}:{at}) COMPREPLY=($(compgen -W "{" ".join(argument.words)}" -- "$word")); return ;;')
    takes = "|".join(f"--{it.name}" for it in OPTIONS)
    known = "|".join(it.name for it in MODES)
    nothing = "|".join(it.name for it in MODES if not it.reads) or "-"
    return f"""# Completions of ./nestrun for bash, made by tools/command_papers.py: `. tools/nestrun.bash`
_nestrun() {{
  local word=${{COMP_WORDS[COMP_CWORD]}} mode= at=0 behind=0
  for ((at = 1; at < COMP_CWORD; at++)); do
    case ${{COMP_WORDS[at]}} in
      {takes}) at=$((at + 1)) ;;
      -*) ;;
      {known}) [ -n "$mode" ] && behind=$((behind + 1)); mode=${{mode:-${{COMP_WORDS[at]}}}} ;;
      *) behind=$((behind + 1)) ;;
    esac
  done
  COMPREPLY=()
  [ "$COMP_CWORD" -gt 1 ] && case ${{COMP_WORDS[COMP_CWORD - 1]}} in {takes}) return ;; esac
  case $word in
    -*) COMPREPLY=($(compgen -W "{options} $([ -n "$mode" ] || echo {own})" -- "$word")); return ;;
  esac
  [ -n "$mode" ] || {{ COMPREPLY=($(compgen -W "{modes}" -- "$word")); return; }}
  case $mode:$((behind + 1)) in
{chr(10).join(cases)}
    {nothing.replace("|", ":*|")}:*) return ;;
  esac
  COMPREPLY=($(compgen -f -X '!*.nest' -- "$word") $(compgen -d -- "$word"))
}}
complete -o filenames -F _nestrun nestrun ./nestrun
"""


def highlighter():
    return f"""" Colours of a nest file for Vim, made by tools/command_papers.py.
if exists("b:current_syntax")
  finish
endif
syntax match nestComment "#.*$"
syntax match nestNumber "\\<\\d\\+\\>"
syntax keyword nestWord {" ".join(nest_text.KEYWORDS)}
syntax keyword nestCommand {" ".join(nest_text.COMMANDS)}
syntax match nestAccess "[\\[\\]]"
highlight default link nestComment Comment
highlight default link nestNumber Number
highlight default link nestWord Statement
highlight default link nestCommand Function
highlight default link nestAccess Special
let b:current_syntax = "nest"
"""


PAPERS = {"nestrun.1": man_page, "nestrun.bash": completions, "nest.vim": highlighter}


def main():
    if sys.argv[1:] == ["--help"]:
        sys.stdout.write(help_text())
        return
    for name, made in PAPERS.items():
        with open(os.path.join(HERE, name), "w", encoding="utf-8") as file:
            file.write(made())


if __name__ == "__main__":
    main()
