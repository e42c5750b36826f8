# Completion of sandhi-page's words in bash.
_sandhi_page() {
    local word="${COMP_WORDS[COMP_CWORD]}"
    if [[ "$word" = -* ]]; then
        mapfile -t COMPREPLY < <(compgen -W "--port --no-browser" -- "$word")
    else
        mapfile -t COMPREPLY < <(compgen -f -- "$word")
    fi
}
complete -o filenames -F _sandhi_page sandhi-page
