#!/usr/bin/env bash
# Makes the Debian package of a program and tries it: `try_package.sh PROGRAM`. Without PROGRAM the proved program is taken.
#
# The package is made twice, which gives the same bytes; lintian finds no error in it; its manual pages have no warning; what
# they and the completions tell is what the program and the libraries are. It is installed under a root of its own, where a
# verse is cut and the page is served, and removed, after which each file there is as it was before. Says what is wrong, and
# ends with 1, where something is. Where Debian's tools are not there, it says so in a line and ends with 0.
set -u
top="$(dirname "$(dirname "$(readlink -f "${BASH_SOURCE[0]}")")")"
. "$top/building/crates.sh"
. "$top/building/unproved.sh"
. "$top/package_files/pack.sh"

fail() {
    echo "try_package: $*" >&2
    exit 1
}
has() {
    command -v "$1" >/dev/null
}
# Whether a tool of Debian is there; where it is not, says what was left out.
has_or_says() {
    has "$1" || { echo "try_package: $2, since $1 is not here" && return 1; }
}

has_or_says dpkg-deb "the package was not tried" || exit 0
read_crates
if [ "$#" = 0 ]; then
    want_proved || exit 1
    set -- "$proved"
fi
program="$(readlink -f "$1")"
work="$(mktemp -d)" || exit 1
server=
trap '[ -z "$server" ] || kill "$server" 2>/dev/null; rm -rf "$work"' EXIT

# The package is made twice, an hour apart by the clock of its files.
mkdir "$work/first" "$work/second"
export SOURCE_DATE_EPOCH="${SOURCE_DATE_EPOCH:-1700000000}"
package="$(make_package "$program" "$work/first")" || exit 1
again="$(umask 077 && make_package "$program" "$work/second")" || exit 1
cmp "$package" "$again" || fail "the same files gave two different packages"

if has_or_says lintian "the package was not checked by lintian"; then
    lintian --allow-root --fail-on error "$package" >"$work/lintian" 2>&1 || fail "lintian: $(cat "$work/lintian")"
fi
if has_or_says man "the manual pages were not checked"; then
    for page in "$top"/package_files/*.1; do
        said="$(LC_ALL=C.UTF-8 MANROFFSEQ= man --warnings -E UTF-8 -l -Tutf8 -Z "$page" 2>&1 >/dev/null)"
        [ -z "$said" ] || fail "$page: $said"
    done
fi

# Each command that the program tells is in the manual page and in the completions.
commands="$("$program" -- 2>&1 >/dev/null | sed -n 's/^  \([a-z][a-z-]*\) .*/\1/p')"
[ -n "$commands" ] || fail "the program tells no commands"
for command in $commands; do
    for file in sandhi.1 sandhi.bash _sandhi; do
        grep -qw -- "$command" "$top/package_files/$file" || fail "$file does not tell the command $command"
    done
done
# Each library of the toolchain that the program is made of is in the copyright file.
if has_or_says rt "the libraries of the copyright file were not compared"; then
    add_libraries "$(dirname "$(rt doc)")" || exit 1
    for library in "${of_kit[@]}"; do
        grep -qw -- "$library" "$top/package_files/copyright" || fail "copyright does not tell the library $library"
    done
fi

# The files of the root with what is in them, but for dpkg's own records.
list_files() {
    (cd "$work/root" && find . -path ./var/lib/dpkg -prune -o -printf '%y %m %P %l\n' -type f -exec sha256sum {} + | LC_ALL=C sort)
}
run_dpkg() {
    PATH="$PATH:/usr/sbin:/sbin" dpkg --root="$work/root" --log="$work/dpkg.log" --force-depends --force-not-root \
        --force-script-chrootless --path-include='/*' "$@" >"$work/said" 2>&1 || fail "dpkg $1: $(cat "$work/said")"
}
mkdir -p "$work"/root/var/lib/dpkg/{info,updates,triggers} "$work"/root/usr/{bin,share/doc/other}
touch "$work/root/var/lib/dpkg/status" "$work"/root/usr/{bin/other,share/doc/other/copyright}
before="$(list_files)"
run_dpkg --install "$package"
installed="$(list_files)"

lexicon="$work/root/usr/share/yuzudeck/starter.lex"
cmp "$program" "$work/root/usr/bin/sandhi" || fail "another program is installed"
answers="$("$work/root/usr/bin/sandhi" segment --in devanagari "$lexicon" 'आसीद्राजा नलो नाम वीरसेनसुतो बली ।')" ||
    fail "the installed program ended with $?"
grep -q '^1: AsIt\[.*balI\[[a-z]*\]$' <<<"$answers" || fail "the verse was cut in another way: $answers"
"$work/root/usr/bin/sandhi" migrate "$lexicon" "$work/migrated.lex" >/dev/null && cmp "$lexicon" "$work/migrated.lex" ||
    fail "the lexicon of the package is not up to date"

# Completion in bash: of a command, of a scheme, of a file.
complete_words() {
    COMP_WORDS=(sandhi "$@") COMP_CWORD="$#" COMPREPLY=()
    _sandhi
    echo "${COMPREPLY[*]}"
}
. "$work/root/usr/share/bash-completion/completions/sandhi"
[ "$(complete_words se)" = segment ] || fail "se is not completed to segment"
[ "$(complete_words segment --in v)" = velthuis ] || fail "a scheme is not completed"
[ "$(complete_words batch "$lexicon" d)" = devanagari ] || fail "the scheme of batch is not completed"
[ "$(complete_words read "${lexicon%.lex}")" = "$lexicon" ] || fail "a lexicon is not completed"
[ "$(complete_words migrate "$lexicon" "${lexicon%.lex}")" = "$lexicon" ] || fail "the file that migrate writes is not completed"
if has zsh; then
    for file in "$work"/root/usr/share/zsh/vendor-completions/*; do
        zsh -n "$file" || fail "zsh cannot read $file"
    done
fi

# The page: it is served, and writes under the cache folder alone.
if [ -e "$work/root/usr/bin/sandhi-page" ] && has_or_says python3 "the page was not tried"; then
    XDG_CACHE_HOME="$work/cache" "$work/root/usr/bin/sandhi-page" --no-browser --port 0 >"$work/page" 2>&1 &
    server=$!
    address=
    for ((turn = 0; turn < 600 && ! ${#address}; turn++)); do
        kill -0 "$server" 2>/dev/null || fail "the page ended: $(cat "$work/page")"
        sleep 0.1
        address="$(grep -o 'http://127\.0\.0\.1:[0-9]*/' "$work/page" | head -n 1)"
    done
    [ -n "$address" ] || fail "the page was not served within a minute: $(cat "$work/page")"
    python3 -c 'import sys, urllib.request
sys.exit(b"<html" not in urllib.request.urlopen(sys.argv[1], timeout=10).read().lower())' "$address" ||
        fail "the page at $address is no page"
    kill "$server"
    wait "$server" 2>/dev/null
    server=
    [ -d "$work/cache/yuzudeck" ] || fail "the page keeps its files elsewhere than under the cache folder"
fi
diff <(echo "$installed") <(list_files) || fail "what was tried changed files of the root"

run_dpkg --purge yuzudeck
diff <(echo "$before") <(list_files) || fail "the package left files when it was removed"
echo "try_package: $(basename "$package") is made twice with the same bytes, and was installed, tried and removed"
