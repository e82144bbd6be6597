# Completion for dwg and its tools, for bash. Read it by `source tools/completion.bash`, or install it by `make install`.

_dwg() {
    local word=${COMP_WORDS[COMP_CWORD]}
    COMPREPLY=()
    # The program reads standard input: after its command only make and drill have words, and these are numbers.
    if [[ $COMP_CWORD -eq 1 ]]; then
        mapfile -t COMPREPLY < <(compgen -W "sections classes show rewrite audit recover make drill appdata certify accept carry" -- "$word")
    fi
}

# The options of a tool, or of its subcommand: those of --help.
_dwg_options() {
    local words=("$1")
    [[ ${1##*/} != dwg-check || ! $2 =~ ^(keep|verify|forget|export|report)$ ]] || words+=("$2")
    "${words[@]}" --help 2>/dev/null | grep -oE -- '--[a-z][a-z0-9-]*' | sort -u
}

# What may stand after an option of a tool: words, or "-" where nothing can be proposed; nothing where names may.
_dwg_values() {
    case $1,$2 in
        *,--only) echo "sound unsound damaged changed missing new moved failed unreadable" ;;
        *,--take) echo "new moved new,moved" ;;
        *,--whole) echo "skip copy" ;;
        *,--space) echo "model paper" ;;
        dwg-picture,--layers) echo "-" ;;
        *,--jobs | *,--ext | *,--exclude | *,--texts | *,--window | *,--width | *,--block | *,--background | *,--ignore | *,--codepage | *,--picture) echo "-" ;;
    esac
}

# Proposes subcommands, options, their values, and names of drawings and folders.
_dwg_tool() {
    local word=${COMP_WORDS[COMP_CWORD]} before=${COMP_WORDS[COMP_CWORD - 1]} first=${COMP_WORDS[1]} tool=${1##*/} values
    values=$(_dwg_values "$tool" "$before")
    COMPREPLY=()
    if [[ $word == -* ]]; then
        mapfile -t COMPREPLY < <(compgen -W "$(_dwg_options "$1" "$first")" -- "$word")
    elif [[ -n $values ]]; then
        mapfile -t COMPREPLY < <(compgen -W "${values#-}" -- "$word")
    elif [[ $before == --program || $before == --output || $before == --preview || $COMP_CWORD -eq 2 && $tool,$first =~ ^dwg-check,(keep|verify|forget|export)$ ]]; then
        mapfile -t COMPREPLY < <(compgen -f -- "$word")
    elif [[ $before == --tree ]]; then
        mapfile -t COMPREPLY < <(compgen -d -- "$word")
    else
        mapfile -t COMPREPLY < <(
            [[ $tool,$COMP_CWORD != dwg-check,1 ]] || compgen -W "keep verify forget export report" -- "$word"
            compgen -d -- "$word"
            compgen -f -X '!*.[dD][wW][gG]' -- "$word"
        )
    fi
    [[ ${#COMPREPLY[@]} -eq 0 ]] || compopt -o filenames 2>/dev/null
}

complete -F _dwg dwg ./dwg
complete -F _dwg_tool dwg-check dwg-recover dwg-json dwg-diff dwg-picture dwg-info
