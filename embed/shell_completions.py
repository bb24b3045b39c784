"""shell_completions.py: completions of the program `gamhilon` for bash, zsh and fish, made of what
its help says (help_texts.py). The name of a value says what completes it; a style is completed by
the names of `gamhilon styles`, files, and, once it has a beginning, the names of the folder of
styles."""
from __future__ import annotations

from typing import Dict, Iterable, List

from help_texts import Entry, HelpFault, Program

ABOUT = '# Completions of {name} for {shell}, made by embed/man.py of what {name} --help says.\n'
BASH, ZSH, FISH = 'completions/gamhilon.bash', 'completions/_gamhilon', 'completions/gamhilon.fish'
# What completes a value, by its name. All others are files.
KINDS = {'STYLE': 'styles', 'NAME': 'names', 'FOLDER': 'folders', 'TAG': 'nothing', 'N': 'nothing'}


def kind_of(entry: Entry) -> str:
    """What completes the value of an option, or an argument."""
    return 'words' if entry.values else KINDS.get(entry.value or '', 'files')


def made(program: Program, styles: str) -> Dict[str, str]:
    """The completions by their paths, for a program that looks in this folder of styles. Raises
    HelpFault where an option before the command has a value, which none of them would know."""
    if any(entry.value for entry in program.help.options):
        raise HelpFault('an option before the command has a value')
    texts = {}
    for path, shell, template, lines in (
            (BASH, 'bash', BASH_TEXT, bash_lines(program)),
            (ZSH, 'zsh', ZSH_TEXT, zsh_lines(program)),
            (FISH, 'fish', FISH_TEXT, fish_lines(program))):
        about = ABOUT.format(name=program.name, shell=shell)
        text = template.replace('@ABOUT@\n', about).replace('@STYLES@', styles)
        texts[path] = text.replace('@LINES@\n', ''.join(f'{line}\n' for line in lines))
    return texts


def names_of(program: Program) -> str:
    """The names of all commands."""
    return ' '.join(entry.spec for entry in program.help.commands)


def flags_of(entries: Iterable[Entry]) -> str:
    """The names of all options."""
    return ' '.join(flag for entry in entries for flag in entry.flags)


# bash

BASH_TEXT = '''\
@ABOUT@

# Offers what begins with a word: styles, names of those that are built in, folders, files or words.
_gamhilon_offer() { # PROGRAM BEGINNING KIND [WORD..]
    local words=("${@:4}") word path
    COMPREPLY=()
    case $3 in
        names | styles) mapfile -t words < <("$1" styles 2> /dev/null) ;;
        folders) mapfile -t COMPREPLY < <(compgen -d -- "$2") ;;
    esac
    # (without a beginning those that are published would be thousands)
    if [[ $3 == styles && -n $2 ]]; then
        for path in @STYLES@/"$2"*.csl; do
            word=${path##*/}
            if [[ -e $path ]]; then
                words+=("${word%.csl}")
            fi
        done
    fi
    case $3 in
        styles | files) mapfile -t COMPREPLY < <(compgen -f -- "$2") ;;
    esac
    for word in "${words[@]}"; do
        if [[ $word == "$2"* ]]; then
            COMPREPLY+=("$word")
        fi
    done
    case $3 in
        styles | files | folders) compopt -o filenames 2> /dev/null ;;
        *) compopt +o default 2> /dev/null ;;
    esac
    return 0
}

_gamhilon() {
    local current=${COMP_WORDS[COMP_CWORD]} previous=${COMP_WORDS[COMP_CWORD - 1]} command='' word
    # (of --option=value each part is a word)
    if [[ $current == = ]]; then
        current=''
    elif [[ $previous == = ]]; then
        previous=${COMP_WORDS[COMP_CWORD - 2]}
    fi
    for word in "${COMP_WORDS[@]:1:COMP_CWORD - 1}"; do
        if [[ $word != -* ]]; then
            command=$word
            break
        fi
    done
    set -- "$1" "$current"
    case $command:$previous in
@LINES@
    esac
}

complete -o default -F _gamhilon gamhilon
'''


def bash_lines(program: Program) -> List[str]:
    """The values of options, and then, in the same way, options and arguments."""
    values, others = [], []
    for name, command in program.commands.items():
        values += [bash_case([f'{name}:{flag}' for flag in entry.flags], kind_of(entry),
                             ' '.join(entry.values)) for entry in command.options if entry.value]
        others.append(bash_case([f'{name}:-*'], 'words', flags_of(command.options)))
        others += [bash_case([f'{name}:*'], kind_of(entry), ' '.join(entry.values))
                   for entry in command.arguments[:1]]
    others += [bash_case([':-*'], 'words', flags_of(program.help.options)),
               bash_case([':*', 'help:*'], 'words', names_of(program)),
               bash_case(['*'], 'nothing', '')]
    return [*values, '        *)', '            case $command:$current in',
            *(f'        {line}' for line in others), '            esac', '            ;;']


def bash_case(patterns: List[str], kind: str, words: str) -> str:
    """A branch that offers something."""
    more = f' {words}' if words else ''
    return f'        {" | ".join(patterns)}) _gamhilon_offer "$@" {kind}{more} ;;'


# zsh

ZSH_TEXT = '''\
#compdef gamhilon
@ABOUT@

_gamhilon_names() {
    local -a names
    names=(${(f)"$(_call_program names $program styles 2> /dev/null)"})
    compadd "$@" -a names
}

# (without a beginning they would be thousands)
_gamhilon_published() {
    local -a names
    [[ -n $PREFIX ]] || return 1
    names=(@STYLES@/*.csl(N:t:r))
    compadd "$@" -a names
}

_gamhilon_styles() {
    _alternative 'names:style that is built in:_gamhilon_names' \\
        'published:style:_gamhilon_published' 'files:file:_files -g "*.csl"'
}

_gamhilon() {
    local curcontext=$curcontext program=$words[1] state line
    local -A opt_args
    local -a commands
@LINES@
}

_gamhilon "$@"
'''
ZSH_ACTIONS = {'styles': '_gamhilon_styles', 'names': '_gamhilon_names', 'folders': '_files -/',
               'nothing': '', 'files': '_files'}


def zsh_lines(program: Program) -> List[str]:
    """The commands, and of each its options and arguments."""
    commands = [quoted(f'{entry.spec}:{entry.help}') for entry in program.help.commands]
    lines = ['    commands=(', *(f'        {command}' for command in commands), '    )',
             '    _arguments -C \\',
             *(f'        {option} \\' for entry in program.help.options
               for option in zsh_option(entry)),
             "        '1: :->command' '*:: :->rest'",
             '    case $state in',
             '    command) _describe -t commands command commands ;;',
             '    rest)', '        case $words[1] in',
             '        help) _describe -t commands command commands ;;']
    for name, command in program.commands.items():
        specs = [spec for entry in command.options for spec in zsh_option(entry)]
        specs += [zsh_argument(entry) for entry in command.arguments]
        lines += [f'        {name})', '            _arguments \\',
                  ' \\\n'.join(f'                {spec}' for spec in specs), '            ;;']
    return [*lines, '        esac', '        ;;', '    esac']


def zsh_action(entry: Entry) -> str:
    """What completes a value, for _arguments."""
    return f'({" ".join(entry.values)})' if entry.values else ZSH_ACTIONS[kind_of(entry)]


def zsh_option(entry: Entry) -> List[str]:
    """An option under each of its names, for _arguments."""
    text = entry.help
    for character in '\\[]:':
        text = text.replace(character, f'\\{character}')
    value = f':{entry.value}:{zsh_action(entry)}' if entry.value else ''
    others = '*' if entry.is_repeated else f'({" ".join(entry.flags)})'
    if entry.flags[-1] in ('--help', '--version'):
        others = '(- *)'
    return [quoted(f'{others}{flag}{"=" if value and flag.startswith("--") else ""}[{text}]{value}')
            for flag in entry.flags]


def zsh_argument(entry: Entry) -> str:
    """An argument, for _arguments."""
    lead = '*:' if entry.is_repeated else ':' if entry.is_required else '::'
    return quoted(f'{lead}{entry.value}:{zsh_action(entry)}')


def quoted(text: str) -> str:
    """A word of zsh."""
    return "'" + text.replace("'", "'\\''") + "'"


# fish

FISH_TEXT = '''\
@ABOUT@

function __gamhilon_names
    type -q gamhilon; and gamhilon styles 2> /dev/null
end

function __gamhilon_styles
    __gamhilon_names
    set -l word (commandline -ct | string replace -r '^--\\w+=' '')
    # (without a beginning those that are published would be thousands)
    if test -n "$word"
        for path in @STYLES@/*.csl
            string replace -r '.*/(.*)\\.csl$' '$1' $path
        end
    end
    __fish_complete_suffix .csl
end

complete -c gamhilon -f
@LINES@
'''
FISH_ACTIONS = {'styles': "-a '(__gamhilon_styles)'",
                'names': "-a '(__gamhilon_names)'",
                'folders': "-a '(__fish_complete_directories)'", 'nothing': '', 'files': '-F'}


def fish_lines(program: Program) -> List[str]:
    """The commands, and of each its options and arguments."""
    bare = "complete -c gamhilon -n '__fish_use_subcommand'"
    lines = [f'{bare} {fish_option(entry)}' for entry in program.help.options]
    lines += [f'{bare} -a {entry.spec} -d {fish_quoted(entry.help)}'
              for entry in program.help.commands]
    lines.append("complete -c gamhilon -n '__fish_seen_subcommand_from help' "
                 f"-a '{names_of(program)}'")
    for name, command in program.commands.items():
        seen = f"complete -c gamhilon -n '__fish_seen_subcommand_from {name}'"
        lines += [f'{seen} {fish_option(entry)}' for entry in command.options]
        lines += [f'{seen} {fish_action(entry)}' for entry in command.arguments[:1]]
    return lines


def fish_option(entry: Entry) -> str:
    """An option, for complete."""
    words = [f'-l {flag[2:]}' if flag.startswith('--') else f'-s {flag[1:]}'
             for flag in entry.flags]
    if entry.value:
        words += ['-r' if kind_of(entry) == 'files' else '-x', fish_action(entry)]
    return ' '.join([*filter(None, words), '-d', fish_quoted(entry.help)])


def fish_action(entry: Entry) -> str:
    """What completes a value or an argument, for complete."""
    return f"-a '{' '.join(entry.values)}'" if entry.values else FISH_ACTIONS[kind_of(entry)]


def fish_quoted(text: str) -> str:
    """A word of fish."""
    return "'" + text.replace('\\', '\\\\').replace("'", "\\'") + "'"
