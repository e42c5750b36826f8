# What the scripts that build, run and package the program share. Whoever sources this sets `top`, the top of the repository.

program_folder="$top/crates/sandhi_program"
# The program that is built from proved crates alone, and the one that is built of the same sources with no proof.
proved="$program_folder/out/sandhi_program"
unproved="$program_folder/out/unproved/sandhi_program"

say() {
    echo "sandhi: $*" >&2
}

# Puts the crates that the program needs into `order`, each after those that it uses, and what each uses into `uses`. What
# crates.txt does not list is the toolchain's.
declare -A uses=()
order=()
read_crates() {
    local name below
    while IFS=: read -r name below; do
        name="${name%%[ #]*}"
        [ -z "$name" ] || uses[$name]="${below%%#*}"
    done <"$top/crates.txt"
    add_crate sandhi_program
}
add_crate() {
    local below
    [ -n "${uses[$1]+listed}" ] && [[ " ${order[*]-} " != *" $1 "* ]] || return 0
    for below in ${uses[$1]}; do
        add_crate "$below"
    done
    order+=("$1")
}

# Whether the program of this path stands, and no source of its crates is newer.
is_current() {
    [ -x "$1" ] && [ -z "$(find "${order[@]/#/$top/crates/}" "$top/crates.txt" -name out -prune -o -newer "$1" \
        \( -path '*/src/*.rt' -o -path '*/specs/*.antt' -o -name crates.txt \) -print -quit)" ]
}

# Says why the proved program cannot be taken, and fails, where it does not stand or a source is newer.
want_proved() {
    if [ ! -x "$proved" ]; then
        say "there is no proved program: ./sandhi --prove proves and builds it"
        return 1
    elif ! is_current "$proved"; then
        say "the sources are newer than the proved program: ./sandhi --prove proves and builds it again"
        return 1
    fi
}
