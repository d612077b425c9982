"""Completions for bash and zsh, from the program's help texts."""
import shlex

import helps

BASH = '''# Completion of canary for bash, made from its help.
_canary() {{
    local word=${{COMP_WORDS[COMP_CWORD]}} command=${{COMP_WORDS[1]-}} options='' words=''
    if [ "$COMP_CWORD" -eq 1 ]; then
        mapfile -t COMPREPLY < <(compgen -W '{commands}' -- "$word")
        return
    fi
    case $command in
{cases}
    esac
    case $word in
        -*) mapfile -t COMPREPLY < <(compgen -W "$options" -- "$word") ;;
        *)
            case ${{COMP_WORDS[COMP_CWORD - 1]}} in
{files}
                -* | */*) COMPREPLY=() ;;
                *) mapfile -t COMPREPLY < <(compgen -W "$words" -f -- "$word") ;;
            esac
            ;;
    esac
}}
complete -o filenames -F _canary canary
'''
ZSH = '''#compdef canary
# Completion of canary for zsh, made from its help.
local -a commands options words_of_do
commands=(
{commands}
)
if (( CURRENT == 2 )); then
    _describe command commands
    return
fi
case $words[2] in
{cases}
esac
if [[ $words[CURRENT] == -* ]]; then
    compadd -- $options
else
    (( $#words_of_do )) && compadd -- $words_of_do
    _files
fi
'''
# Placeholders of values that are the names of files.
FILES = ("FILE", "FOLDER")


def bash(program):
    """What bash sources."""
    _, found = helps.helps_of(program)
    cases = []
    for name, its in found.items():
        words = helps.asked_words(its) if name == "do" else []
        cases.append(f"        {name}) options='{' '.join(its.options())}' "
                     f"words='{' '.join(words)}' ;;")
    values = {option for its in found.values() for option, of in its.options().items()
              if of in FILES}
    files = f"                {' | '.join(sorted(values))})\n" \
        '                    mapfile -t COMPREPLY < <(compgen -f -- "$word") ;;'
    return BASH.format(commands=" ".join(found), cases="\n".join(cases), files=files)


def zsh(program):
    """What zsh loads as the function _canary."""
    _, found = helps.helps_of(program)
    commands = [f"    {shlex.quote(name + ':' + its.about)}" for name, its in found.items()]
    cases = []
    for name, its in found.items():
        words = helps.asked_words(its) if name == "do" else []
        cases.append(f"    {name}) options=({' '.join(its.options())}) "
                     f"words_of_do=({' '.join(words)}) ;;")
    return ZSH.format(commands="\n".join(commands), cases="\n".join(cases))
