# Completions of gamhilon for fish, made by embed/man.py of what gamhilon --help says.

function __gamhilon_names
    type -q gamhilon; and gamhilon styles 2> /dev/null
end

function __gamhilon_styles
    __gamhilon_names
    set -l word (commandline -ct | string replace -r '^--\w+=' '')
    # (without a beginning those that are published would be thousands)
    if test -n "$word"
        for path in /usr/share/citation-style-language/styles/*.csl
            string replace -r '.*/(.*)\.csl$' '$1' $path
        end
    end
    __fish_complete_suffix .csl
end

complete -c gamhilon -f
complete -c gamhilon -n '__fish_use_subcommand' -s h -l help -d 'Print help'
complete -c gamhilon -n '__fish_use_subcommand' -s V -l version -d 'Print version'
complete -c gamhilon -n '__fish_use_subcommand' -a cite -d 'Prints each citation'
complete -c gamhilon -n '__fish_use_subcommand' -a bibliography -d 'Prints the items that are cited, or of all references without citations'
complete -c gamhilon -n '__fish_use_subcommand' -a explain -d 'Says which element of a style wrote each text, as JSON or as a page'
complete -c gamhilon -n '__fish_use_subcommand' -a session -d 'Answers a document that is edited, a JSON object a line in and one out'
complete -c gamhilon -n '__fish_use_subcommand' -a render -d 'Prints the citations and the bibliography of a document of cite_run'
complete -c gamhilon -n '__fish_use_subcommand' -a check -d 'Says what files are, or where they are wrong'
complete -c gamhilon -n '__fish_use_subcommand' -a entries -d 'Prints references as CSL-JSON, and what was lost of them'
complete -c gamhilon -n '__fish_use_subcommand' -a styles -d 'Prints the names of the styles that are built in, or the file of one'
complete -c gamhilon -n '__fish_use_subcommand' -a css -d 'Prints the style sheet of citations and reference lists'
complete -c gamhilon -n '__fish_use_subcommand' -a help -d 'Print this message or the help of the given subcommand(s)'
complete -c gamhilon -n '__fish_seen_subcommand_from help' -a 'cite bibliography explain session render check entries styles css help'
complete -c gamhilon -n '__fish_seen_subcommand_from cite' -l style -x -a '(__gamhilon_styles)' -d 'The style: a file, a name of `gamhilon styles`, or one in the folder of styles'
complete -c gamhilon -n '__fish_seen_subcommand_from cite' -l locale -x -d 'The language, in place of the style\'s'
complete -c gamhilon -n '__fish_seen_subcommand_from cite' -l styles -x -a '(__fish_complete_directories)' -d 'Where styles are'
complete -c gamhilon -n '__fish_seen_subcommand_from cite' -l locales -x -a '(__fish_complete_directories)' -d 'Where locale files are'
complete -c gamhilon -n '__fish_seen_subcommand_from cite' -l abbreviations -r -F -d 'Short forms, as of the titles of journals, in JSON'
complete -c gamhilon -n '__fish_seen_subcommand_from cite' -l to -x -a 'text html markdown latex json' -d 'The form of what is written (text)'
complete -c gamhilon -n '__fish_seen_subcommand_from cite' -l standalone -d 'A whole page of HTML'
complete -c gamhilon -n '__fish_seen_subcommand_from cite' -l nocite -d 'References that aren\'t cited are listed, too'
complete -c gamhilon -n '__fish_seen_subcommand_from cite' -l draft -d 'Cites of items that aren\'t there stand as their ids, with a question mark'
complete -c gamhilon -n '__fish_seen_subcommand_from cite' -l most-steps -x -d 'How many steps the style may take for each cite and each item (5000)'
complete -c gamhilon -n '__fish_seen_subcommand_from cite' -l most-bytes -x -d 'How many bytes the style may write for each cite and each item (100000)'
complete -c gamhilon -n '__fish_seen_subcommand_from cite' -l from -x -a 'json csljson csl-json bibtex biblatex ris' -d 'The form of references, in place of that of the file\'s ending or beginning'
complete -c gamhilon -n '__fish_seen_subcommand_from cite' -l references -r -F -d 'More references; it may stand several times'
complete -c gamhilon -n '__fish_seen_subcommand_from cite' -l link-citations -d 'Cites lead to their items, in HTML, Markdown and LaTeX'
complete -c gamhilon -n '__fish_seen_subcommand_from cite' -l with-bibliography -d 'The bibliography follows the citations'
complete -c gamhilon -n '__fish_seen_subcommand_from cite' -s h -l help -d 'Print help'
complete -c gamhilon -n '__fish_seen_subcommand_from cite' -F
complete -c gamhilon -n '__fish_seen_subcommand_from bibliography' -l style -x -a '(__gamhilon_styles)' -d 'The style: a file, a name of `gamhilon styles`, or one in the folder of styles'
complete -c gamhilon -n '__fish_seen_subcommand_from bibliography' -l locale -x -d 'The language, in place of the style\'s'
complete -c gamhilon -n '__fish_seen_subcommand_from bibliography' -l styles -x -a '(__fish_complete_directories)' -d 'Where styles are'
complete -c gamhilon -n '__fish_seen_subcommand_from bibliography' -l locales -x -a '(__fish_complete_directories)' -d 'Where locale files are'
complete -c gamhilon -n '__fish_seen_subcommand_from bibliography' -l abbreviations -r -F -d 'Short forms, as of the titles of journals, in JSON'
complete -c gamhilon -n '__fish_seen_subcommand_from bibliography' -l to -x -a 'text html markdown latex json' -d 'The form of what is written (text)'
complete -c gamhilon -n '__fish_seen_subcommand_from bibliography' -l standalone -d 'A whole page of HTML'
complete -c gamhilon -n '__fish_seen_subcommand_from bibliography' -l nocite -d 'References that aren\'t cited are listed, too'
complete -c gamhilon -n '__fish_seen_subcommand_from bibliography' -l draft -d 'Cites of items that aren\'t there stand as their ids, with a question mark'
complete -c gamhilon -n '__fish_seen_subcommand_from bibliography' -l most-steps -x -d 'How many steps the style may take for each cite and each item (5000)'
complete -c gamhilon -n '__fish_seen_subcommand_from bibliography' -l most-bytes -x -d 'How many bytes the style may write for each cite and each item (100000)'
complete -c gamhilon -n '__fish_seen_subcommand_from bibliography' -l from -x -a 'json csljson csl-json bibtex biblatex ris' -d 'The form of references, in place of that of the file\'s ending or beginning'
complete -c gamhilon -n '__fish_seen_subcommand_from bibliography' -l references -r -F -d 'More references; it may stand several times'
complete -c gamhilon -n '__fish_seen_subcommand_from bibliography' -s h -l help -d 'Print help'
complete -c gamhilon -n '__fish_seen_subcommand_from bibliography' -F
complete -c gamhilon -n '__fish_seen_subcommand_from explain' -l locale -x -d 'The language, in place of the style\'s'
complete -c gamhilon -n '__fish_seen_subcommand_from explain' -l styles -x -a '(__fish_complete_directories)' -d 'Where styles are'
complete -c gamhilon -n '__fish_seen_subcommand_from explain' -l locales -x -a '(__fish_complete_directories)' -d 'Where locale files are'
complete -c gamhilon -n '__fish_seen_subcommand_from explain' -l abbreviations -r -F -d 'Short forms, as of the titles of journals, in JSON'
complete -c gamhilon -n '__fish_seen_subcommand_from explain' -l to -x -a 'json html' -d 'The form of what is written (json)'
complete -c gamhilon -n '__fish_seen_subcommand_from explain' -l most-steps -x -d 'How many steps the style may take for each cite and each item (5000)'
complete -c gamhilon -n '__fish_seen_subcommand_from explain' -l most-bytes -x -d 'How many bytes the style may write for each cite and each item (100000)'
complete -c gamhilon -n '__fish_seen_subcommand_from explain' -l from -x -a 'json csljson csl-json bibtex biblatex ris' -d 'The form of references, in place of that of the file\'s ending or beginning'
complete -c gamhilon -n '__fish_seen_subcommand_from explain' -l references -r -F -d 'More references; it may stand several times'
complete -c gamhilon -n '__fish_seen_subcommand_from explain' -s h -l help -d 'Print help'
complete -c gamhilon -n '__fish_seen_subcommand_from explain' -a '(__gamhilon_styles)'
complete -c gamhilon -n '__fish_seen_subcommand_from session' -s h -l help -d 'Print help'
complete -c gamhilon -n '__fish_seen_subcommand_from render' -l to -x -a 'text html markdown latex json' -d 'The form of what is written (text)'
complete -c gamhilon -n '__fish_seen_subcommand_from render' -l standalone -d 'A whole page of HTML'
complete -c gamhilon -n '__fish_seen_subcommand_from render' -l link-citations -d 'Cites lead to their items, in HTML, Markdown and LaTeX'
complete -c gamhilon -n '__fish_seen_subcommand_from render' -l depth -x -d 'How deep the elements of a layout may nest (100)'
complete -c gamhilon -n '__fish_seen_subcommand_from render' -l elements -x -d 'How many elements a layout may have (100000)'
complete -c gamhilon -n '__fish_seen_subcommand_from render' -s h -l help -d 'Print help'
complete -c gamhilon -n '__fish_seen_subcommand_from render' -F
complete -c gamhilon -n '__fish_seen_subcommand_from check' -l to -x -a 'text json' -d 'The form of what is said of files (text)'
complete -c gamhilon -n '__fish_seen_subcommand_from check' -l fail-on-warnings -d 'A file with a warning counts as wrong'
complete -c gamhilon -n '__fish_seen_subcommand_from check' -s h -l help -d 'Print help'
complete -c gamhilon -n '__fish_seen_subcommand_from check' -F
complete -c gamhilon -n '__fish_seen_subcommand_from entries' -l from -x -a 'json csljson csl-json bibtex biblatex ris' -d 'The form of references, in place of that of the file\'s ending or beginning'
complete -c gamhilon -n '__fish_seen_subcommand_from entries' -s h -l help -d 'Print help'
complete -c gamhilon -n '__fish_seen_subcommand_from entries' -F
complete -c gamhilon -n '__fish_seen_subcommand_from styles' -s h -l help -d 'Print help'
complete -c gamhilon -n '__fish_seen_subcommand_from styles' -a '(__gamhilon_names)'
complete -c gamhilon -n '__fish_seen_subcommand_from css' -s h -l help -d 'Print help'
