# Completions of gamhilon for bash, made by embed/man.py of what gamhilon --help says.

# Offers what begins with a word: styles, names of those that are built in, folders, files or words.
_gamhilon_offer() { # PROGRAM BEGINNING KIND [WORD..]
    local words=("${@:4}") word path
    COMPREPLY=()
    case $3 in
        names | styles) mapfile -t words < <("$1" styles 2> /dev/null) ;;
        folders) mapfile -t COMPREPLY < <(compgen -d -- "$2") ;;
    esac
    # (without a beginning those that are published would be thousands)
    if [[ $3 == styles && -n $2 ]]; then
        for path in /usr/share/citation-style-language/styles/"$2"*.csl; do
            word=${path##*/}
            if [[ -e $path ]]; then
                words+=("${word%.csl}")
            fi
        done
    fi
    case $3 in
        styles | files) mapfile -t COMPREPLY < <(compgen -f -- "$2") ;;
    esac
    for word in "${words[@]}"; do
        if [[ $word == "$2"* ]]; then
            COMPREPLY+=("$word")
        fi
    done
    case $3 in
        styles | files | folders) compopt -o filenames 2> /dev/null ;;
        *) compopt +o default 2> /dev/null ;;
    esac
    return 0
}

_gamhilon() {
    local current=${COMP_WORDS[COMP_CWORD]} previous=${COMP_WORDS[COMP_CWORD - 1]} command='' word
    # (of --option=value each part is a word)
    if [[ $current == = ]]; then
        current=''
    elif [[ $previous == = ]]; then
        previous=${COMP_WORDS[COMP_CWORD - 2]}
    fi
    for word in "${COMP_WORDS[@]:1:COMP_CWORD - 1}"; do
        if [[ $word != -* ]]; then
            command=$word
            break
        fi
    done
    set -- "$1" "$current"
    case $command:$previous in
        cite:--style) _gamhilon_offer "$@" styles ;;
        cite:--locale) _gamhilon_offer "$@" nothing ;;
        cite:--styles) _gamhilon_offer "$@" folders ;;
        cite:--locales) _gamhilon_offer "$@" folders ;;
        cite:--abbreviations) _gamhilon_offer "$@" files ;;
        cite:--to) _gamhilon_offer "$@" words text html markdown latex json ;;
        cite:--most-steps) _gamhilon_offer "$@" nothing ;;
        cite:--most-bytes) _gamhilon_offer "$@" nothing ;;
        cite:--from) _gamhilon_offer "$@" words json csljson csl-json bibtex biblatex ris ;;
        cite:--references) _gamhilon_offer "$@" files ;;
        bibliography:--style) _gamhilon_offer "$@" styles ;;
        bibliography:--locale) _gamhilon_offer "$@" nothing ;;
        bibliography:--styles) _gamhilon_offer "$@" folders ;;
        bibliography:--locales) _gamhilon_offer "$@" folders ;;
        bibliography:--abbreviations) _gamhilon_offer "$@" files ;;
        bibliography:--to) _gamhilon_offer "$@" words text html markdown latex json ;;
        bibliography:--most-steps) _gamhilon_offer "$@" nothing ;;
        bibliography:--most-bytes) _gamhilon_offer "$@" nothing ;;
        bibliography:--from) _gamhilon_offer "$@" words json csljson csl-json bibtex biblatex ris ;;
        bibliography:--references) _gamhilon_offer "$@" files ;;
        explain:--locale) _gamhilon_offer "$@" nothing ;;
        explain:--styles) _gamhilon_offer "$@" folders ;;
        explain:--locales) _gamhilon_offer "$@" folders ;;
        explain:--abbreviations) _gamhilon_offer "$@" files ;;
        explain:--to) _gamhilon_offer "$@" words json html ;;
        explain:--most-steps) _gamhilon_offer "$@" nothing ;;
        explain:--most-bytes) _gamhilon_offer "$@" nothing ;;
        explain:--from) _gamhilon_offer "$@" words json csljson csl-json bibtex biblatex ris ;;
        explain:--references) _gamhilon_offer "$@" files ;;
        render:--to) _gamhilon_offer "$@" words text html markdown latex json ;;
        render:--depth) _gamhilon_offer "$@" nothing ;;
        render:--elements) _gamhilon_offer "$@" nothing ;;
        check:--to) _gamhilon_offer "$@" words text json ;;
        entries:--from) _gamhilon_offer "$@" words json csljson csl-json bibtex biblatex ris ;;
        *)
            case $command:$current in
                cite:-*) _gamhilon_offer "$@" words --style --locale --styles --locales --abbreviations --to --standalone --nocite --draft --most-steps --most-bytes --from --references --link-citations --with-bibliography -h --help ;;
                cite:*) _gamhilon_offer "$@" files ;;
                bibliography:-*) _gamhilon_offer "$@" words --style --locale --styles --locales --abbreviations --to --standalone --nocite --draft --most-steps --most-bytes --from --references -h --help ;;
                bibliography:*) _gamhilon_offer "$@" files ;;
                explain:-*) _gamhilon_offer "$@" words --locale --styles --locales --abbreviations --to --most-steps --most-bytes --from --references -h --help ;;
                explain:*) _gamhilon_offer "$@" styles ;;
                session:-*) _gamhilon_offer "$@" words -h --help ;;
                render:-*) _gamhilon_offer "$@" words --to --standalone --link-citations --depth --elements -h --help ;;
                render:*) _gamhilon_offer "$@" files ;;
                check:-*) _gamhilon_offer "$@" words --to --fail-on-warnings -h --help ;;
                check:*) _gamhilon_offer "$@" files ;;
                entries:-*) _gamhilon_offer "$@" words --from -h --help ;;
                entries:*) _gamhilon_offer "$@" files ;;
                styles:-*) _gamhilon_offer "$@" words -h --help ;;
                styles:*) _gamhilon_offer "$@" names ;;
                css:-*) _gamhilon_offer "$@" words -h --help ;;
                :-*) _gamhilon_offer "$@" words -h --help -V --version ;;
                :* | help:*) _gamhilon_offer "$@" words cite bibliography explain session render check entries styles css help ;;
                *) _gamhilon_offer "$@" nothing ;;
            esac
            ;;
    esac
}

complete -o default -F _gamhilon gamhilon
