#!/usr/bin/env bash
# Tries the sample files with a program: `try_samples.sh [PROGRAM]`, where PROGRAM is its path; without it `./sandhi` is taken.
# Builds their lexicon into a temporary folder, checks it, cuts a line with it, reads this line in a session in which a segment
# is kept, and answers it in a batch. Its text of version 1 has the same forms, and migrated is the lexicon that was built; so is
# that lexicon itself. Says what differs, and ends with 1, where something is not as it should be.
set -u
top="$(dirname "$(dirname "$(readlink -f "$0")")")"
program="$(readlink -f "${1:-$top/sandhi}")"
cd "$top" || exit 1
work="$(mktemp -d)" || exit 1
trap 'rm -rf "$work"' EXIT
lexicon="$work/sample.lex"

fail() {
    echo "try_samples: $*" >&2
    exit 1
}

# Runs the program with the words after the first two. It is to end with the status that the first says, and the first lines
# of its output, as many as the second says, are to be those of the standard input.
expect() {
    local status="$1" lines="$2" found
    shift 2
    "$program" "$@" >"$work/output" 2>"$work/errors"
    found=$?
    [ "$found" = "$status" ] || fail "$1 ended with $found, and not with $status: $(cat "$work/errors")"
    diff <(cat) <(head -n "$lines" "$work/output") >&2 || fail "$1 printed other lines than these"
}

# A table file is no stem file: it is refused, and no lexicon is written.
expect 5 9 build samples/rules.toml samples/tables.csv samples/tables.csv "$lexicon" <<'END'
bad file samples/tables.csv record 1: Fields
END
[ ! -e "$lexicon" ] || fail "a lexicon was written over refused stems"

expect 0 9 build samples/rules.toml samples/tables.csv samples/stems.csv "$lexicon" <<'END'
forms 948
END

expect 0 4 check "$lexicon" <<'END'
phases 5
rules 455
forms 948
overlap pv A a|A>A A|a>A
END
[ "$(wc -l <"$work/output")" = 180 ] || fail "check printed another number of overlaps"
[ "$(tail -n 1 "$work/output")" = end ] || fail "check did not print all overlaps"

recipes/lexicon_text.py first "$lexicon" >"$work/first.lex" || fail "the lexicon has no text of version 1"
[ "$(grep -c '^form ' "$work/first.lex")" = 948 ] || fail "the text of version 1 has another number of form lines"
nodes="$(grep -c '^node ' "$lexicon")"
for old in "$work/first.lex" "$lexicon"; do
    expect 0 9 migrate "$old" "$work/new.lex" <<<"nodes $nodes"
    cmp "$lexicon" "$work/new.lex" >&2 || fail "$(basename "$old") is migrated to another text than was built"
done
# Rules that are limited to phases: saH loses its H before consonants, and Ar comes of the a of a preverb alone.
pronouns="$work/pronouns.lex"
expect 0 9 build samples/pronouns.toml samples/pronoun_tables.csv samples/pronoun_stems.csv "$pronouns" <<'END'
forms 15
END
expect 0 9 check "$pronouns" <<'END'
phases 5
rules 148
forms 15
end
END
expect 0 9 segment "$pronouns" 'sa gacCati' <<'END'
1: saH[dem] (aH|g>ag) gacCati[verb]
end
END
expect 0 9 segment "$pronouns" 'so gacCati' <<'END'
end
END
expect 0 9 segment "$pronouns" 'upArcCati' <<'END'
1: upa[pv] (a|f>Ar) fcCati[verb]
end
END
expect 0 9 segment "$pronouns" 'ihArziH' <<'END'
end
END

line='रामो वनं गच्छति च सेनां नदीं च पश्यति ।'
answer='1: rAmaH[noun] (aH|v>ov) vanam[noun] (m|g>Mg) gacCati[verb] + ca[ind] + senAm[noun] (m|n>Mn) nadIm[noun] (m|c>Mc) ca[ind] + paSyati[verb]'

expect 0 9 segment --in devanagari "$lexicon" "$line" <<END
$answer
end
END

# Reads the lines in a session, and leaves the replies in the file `output`.
session() {
    printf '%s\n' "$@" | "$program" read "$lexicon" >"$work/output" 2>"$work/errors" ||
        fail "read ended with $?: $(cat "$work/errors")"
}

# The answer is listed once, and once more where one of its segments is kept.
session "text devanagari $line" summary
item="$(sed -n 's/^\([0-9]*\): [0-9]* [0-9]* senAm\[noun\]$/\1/p' "$work/output")"
[ -n "$item" ] || fail "the summary has no senAm"
session "text devanagari $line" 'page 1' 'page 1' summary "keep $item" 'page 9'
diff <(printf '%s\n' ok "$answer" end end) <(head -n 4 "$work/output") >&2 || fail "the session has other pages than these"
diff <(printf '%s\n' ok "$answer" end) <(tail -n 3 "$work/output") >&2 || fail "the session has another page than this after keep"

printf '%s\n' "$line" 'रा?' >"$work/text"
expect 0 9 batch "$lexicon" devanagari "$work/text" 1 <<END
line 1
$answer
end
line 2
? spelling 6
END
