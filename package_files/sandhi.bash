# Completion of sandhi's words in bash.
_sandhi() {
    local word="${COMP_WORDS[COMP_CWORD]}" command="${COMP_WORDS[1]-}" before="${COMP_WORDS[COMP_CWORD - 1]}" number
    local schemes="slp1 wx velthuis devanagari"
    COMPREPLY=()
    if [ "$COMP_CWORD" = 1 ]; then
        mapfile -t COMPREPLY < <(compgen -W "segment read batch check build convert join split annotate reread migrate demo" -- "$word")
        return
    fi
    number="$COMP_CWORD"
    if [ "$command" = segment ] && [ "$before" = --in ]; then
        mapfile -t COMPREPLY < <(compgen -W "$schemes" -- "$word")
        return
    elif [ "$command" = segment ] && [[ "$word" = -* ]]; then
        mapfile -t COMPREPLY < <(compgen -W "--in" -- "$word")
        return
    elif [ "$command" = segment ] && [[ " ${COMP_WORDS[*]:2:COMP_CWORD-2} " = *" --in "* ]]; then
        number=$((COMP_CWORD - 2))
    fi
    case "$command $number" in
    "batch 3") mapfile -t COMPREPLY < <(compgen -W "$schemes" -- "$word") ;;
    "convert 2" | "convert 3") mapfile -t COMPREPLY < <(compgen -W "$schemes iast hk" -- "$word") ;;
    "convert 4" | "convert 5" | "segment 2" | "read 2" | "check 2" | "batch 2" | "batch 4" | "join 2" | "split 2" | "annotate 2" | "annotate 4" | "reread "[23] | "migrate "[23] | "build "[2-5]) mapfile -t COMPREPLY < <(compgen -f -- "$word") ;;
    esac
}
complete -o filenames -F _sandhi sandhi
