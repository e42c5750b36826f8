# Makes the Debian package of a program. Sourced after crates.sh.

# How the files lie under the package's root. The page finds its files relative to its own place, as in the repository.
shared=usr/share/yuzudeck
documents=usr/share/doc/yuzudeck

# Copies a folder's files, without what was made beside them.
copy_folder() {
    local from="$1" to="$2" file
    while IFS= read -r file; do
        if [ -x "$from/$file" ]; then
            install -D -m 755 "$from/$file" "$to/$file"
        else
            install -D -m 644 "$from/$file" "$to/$file"
        fi
    done < <(cd "$from" && find . -type f -not -path '*/__pycache__/*' -not -path './tests/*' -printf '%P\n')
}

# The newest version of glibc's symbols that the program asks for.
glibc_of() {
    grep -aoE 'GLIBC_[0-9]+(\.[0-9]+)+' "$1" | sed 's/^GLIBC_//' | sort -Vu | tail -n 1
}

put_program_and_lexicon() {
    local program="$1" root="$2" source
    install -D -m 755 "$program" "$root/usr/bin/sandhi" || return
    for source in rules.toml tables.csv stems.csv roots.csv glosses.csv; do
        [ ! -e "$top/lexicons/starter/$source" ] ||
            install -D -m 644 "$top/lexicons/starter/$source" "$root/$shared/lexicons/starter/$source" || return
    done
    (cd "$root/$shared/lexicons/starter" && "$program" build rules.toml tables.csv stems.csv ../../starter.lex >/dev/null) &&
        chmod 644 "$root/$shared/starter.lex"
}

put_page() {
    local root="$1"
    if [ ! -x "$top/sandhi-page" ]; then
        say "there is no page in this repository, so the package has none"
        return
    fi
    install -D -m 755 "$top/sandhi-page" "$root/$shared/sandhi-page" || return
    copy_folder "$top/page" "$root/$shared/page" || return
    # As in the repository, a script `sandhi` beside the page runs the proved program.
    printf '#!/bin/sh\nexec "$(dirname "$(readlink -f "$0")")/../../bin/sandhi" "$@"\n' >"$root/$shared/sandhi" &&
        chmod 755 "$root/$shared/sandhi" || return
    ln -s ../share/yuzudeck/sandhi-page "$root/usr/bin/sandhi-page"
}

put_manuals_and_completions() {
    local version="$1" root="$2" name
    for name in sandhi sandhi-page; do
        [ -e "$root/usr/bin/$name" ] || continue
        mkdir -p "$root/usr/share/man/man1"
        sed "s/@VERSION@/$version/" "$top/package_files/$name.1" | gzip -9n >"$root/usr/share/man/man1/$name.1.gz" || return
        install -D -m 644 "$top/package_files/$name.bash" "$root/usr/share/bash-completion/completions/$name" || return
        install -D -m 644 "$top/package_files/_$name" "$root/usr/share/zsh/vendor-completions/_$name" || return
    done
}

put_documents() {
    local version="$1" root="$2" file
    install -D -m 644 "$top/package_files/copyright" "$root/$documents/copyright" || return
    install -D -m 644 "$top/package_files/lintian-overrides" "$root/usr/share/lintian/overrides/yuzudeck" || return
    install -D -m 644 "$top/README.md" "$root/$documents/README.md" || return
    for file in docs/{GUIDE,FORMATS,CLAIMS,WORDS}.md lexicons/starter/{README,tables}.md; do
        [ ! -e "$top/$file" ] || install -D -m 644 "$top/$file" "$root/$documents/$file" || return
    done
    for file in first.lex first_stems.csv rules.toml stems.csv tables.csv; do
        install -D -m 644 "$top/samples/$file" "$root/$documents/samples/$file" || return
    done
    printf 'yuzudeck (%s) unstable; urgency=medium\n\n  * Version %s.\n\n -- %s  %s\n' "$version" "$version" "$maintainer" \
        "$(LC_ALL=C date -u -R -d "@$SOURCE_DATE_EPOCH")" | gzip -9n >"$root/$documents/changelog.gz"
}

put_control() {
    local version="$1" root="$2"
    mkdir -p "$root/DEBIAN"
    (cd "$root" && find . -type f -not -path './DEBIAN/*' -printf '%P\0' | LC_ALL=C sort -z | xargs -0 md5sum) \
        >"$root/DEBIAN/md5sums" || return
    cat >"$root/DEBIAN/control" <<END
Package: yuzudeck
Version: $version
Architecture: amd64
Maintainer: $maintainer
Installed-Size: $(find "$root" -type f -printf '%s\n' | awk '{ size += int(($1 + 1023) / 1024) } END { print size }')
Depends: libc6 (>= $(glibc_of "$root/usr/bin/sandhi")), python3
Section: text
Priority: optional
Description: cut lines of Sanskrit into inflected forms
 Yuzudeck undoes Sanskrit sandhi. It takes a lexicon of inflected forms, with
 the rules by which forms merge, and a line of text. It lists every way in
 which the line can be cut into forms, page by page, and a reader keeps or
 rejects single segments.
 .
 A lexicon of classical Sanskrit is part of the package.
END
}

# Makes yuzudeck_VERSION_amd64.deb of a program, in the folder given, and says its path. The same files give the same bytes:
# all times are those of SOURCE_DATE_EPOCH, which is the time of the last commit where it is not set.
make_package() {
    local program="$1" folder="$2" version work maintainer='Yuzudeck maintainers <maintainers@users.noreply.yuzudeck.example>'
    version="$(cat "$top/VERSION")" || return
    export SOURCE_DATE_EPOCH="${SOURCE_DATE_EPOCH:-$(git -C "$top" log -1 --format=%ct 2>/dev/null || stat -c %Y "$top/VERSION")}"
    (
        work="$(mktemp -d)" || exit
        trap 'rm -rf "$work"' EXIT
        umask 022
        root="$work/root"
        mkdir -m 755 "$root" &&
            put_program_and_lexicon "$program" "$root" && put_page "$root" &&
            put_manuals_and_completions "$version" "$root" && put_documents "$version" "$root" &&
            put_control "$version" "$root" &&
            dpkg-deb --root-owner-group -Zxz -z1 --threads-max=1 --build "$root" "$folder/yuzudeck_${version}_amd64.deb" >/dev/null
    ) || { say "the package could not be made" && return 1; }
    echo "$folder/yuzudeck_${version}_amd64.deb"
}
