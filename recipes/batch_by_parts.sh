#!/usr/bin/env bash
# Answers the lines of a text in parts, by several runs of the program at once, and writes what one run of `batch` on the whole
# text writes: `recipes/batch_by_parts.sh LEX SCHEME FILE N [PARTS]`. There are as many parts as processors unless PARTS says
# otherwise. The runs are shared out by GNU parallel where it is installed, else by xargs.
#
# Where a part fails, nothing is written, the part is named on standard error, and the status is that of its run. SANDHI may name
# another program than ./sandhi of this folder.
set -u
export LC_ALL=C

say() {
    echo "batch_by_parts: $*" >&2
}

# Ends the runs that still go on. What belongs to them is a group of its own.
stop_pool() {
    [ -n "${pool-}" ] || return
    kill -- "-$pool" 2>/dev/null
    while kill -0 -- "-$pool" 2>/dev/null; do
        sleep 0.05
    done
    pool=
}

clean_up() {
    stop_pool
    rm -rf "$work"
}

# Answers one part, and counts its lines on from those before it. Ends with 255, at which xargs begins no further part.
answer_part() {
    local part="$1"
    "$sandhi" batch "$lexicon" "$scheme" "$work/text.$part" "$most" >"$work/reply.$part" 2>"$work/errors.$part"
    local status=$?
    if [ "$status" -ne 0 ]; then
        echo "$status" >"$work/status.$part"
        exit 255
    fi
    awk -v before="$(<"$work/before.$part")" '/^line [0-9]+$/ { $2 += before } { print }' "$work/reply.$part" \
        >"$work/counted.$part" && rm "$work/reply.$part" && touch "$work/done.$part"
}

# Cuts the text after line ends into parts of about the same length, and notes how many lines come before each. A text without
# lines is one part.
cut_text() {
    local text before=0
    cp -- "$file" "$work/text" && split -n "l/$parts" -e -d -a 4 "$work/text" "$work/text." || return
    [ -e "$work/text.0000" ] || : >"$work/text.0000"
    for text in "$work"/text.*; do
        echo "$before" >"$work/before.${text##*.}"
        echo "${text##*.}" >>"$work/parts"
        before=$((before + $(wc -l <"$text")))
    done
}

# Answers all parts, as many at once as there are processors. What the tool itself says is of no use to the reader.
answer_parts() {
    export sandhi lexicon scheme most work
    export -f answer_part
    set -m # the runs are a group, which can be ended as one
    if [[ "$(parallel --version 2>/dev/null)" == 'GNU parallel'* ]]; then
        PARALLEL_HOME="$work" parallel --quote --ungroup --tmpdir "$work" --jobs "$jobs" --halt now,fail=1 --arg-file "$work/parts" \
            bash -c 'answer_part "$1"' part </dev/null >/dev/null 2>&1 &
    else
        xargs -P "$jobs" -n 1 bash -c 'answer_part "$1"' part <"$work/parts" >/dev/null 2>&1 &
    fi
    pool=$!
    set +m
    wait "$pool"
    stop_pool
}

# Names the first part that failed, with the first line that its run wrote, and ends with the run's status.
stop_at_failure() {
    local part status reason
    for status in "$work"/status.*; do
        [ -e "$status" ] || break
        part="${status##*.}"
        reason="$(head -n 1 "$work/reply.$part")"
        [[ "$reason" != '' && "$reason" != 'line '* ]] || reason="$(head -n 1 "$work/errors.$part")"
        say "the part from line $(($(<"$work/before.$part") + 1)) on ended with status $(<"$status"): $reason"
        exit "$(<"$status")"
    done
    while read -r part; do
        [ -e "$work/done.$part" ] && continue
        say "the part from line $(($(<"$work/before.$part") + 1)) on was not answered"
        exit 1
    done <"$work/parts"
}

jobs="$(nproc)"
if [ $# -lt 4 ] || [ $# -gt 5 ] || [[ ! "${5-1}" =~ ^[1-9][0-9]{0,3}$ ]]; then
    say "the words are LEX SCHEME FILE N, and a number of parts from 1 to 9999 where it is not that of the processors"
    exit 2
fi
lexicon="$1" scheme="$2" file="$3" most="$4" parts="${5-$jobs}"
sandhi="${SANDHI-$(dirname "$(readlink -f "${BASH_SOURCE[0]}")")/../sandhi}"

# Without words the program answers `usage`. It is built by this first run, and not by each part.
"$sandhi" 2>&1 >/dev/null </dev/null | grep '^sandhi: ' >&2
if [ "${PIPESTATUS[0]}" -ne 2 ]; then
    say "$sandhi could not be run"
    exit 1
fi

work="$(mktemp -d)" || exit 1
trap clean_up EXIT
trap 'exit 1' HUP INT TERM
if ! cut_text 2>"$work/errors"; then
    say "$file could not be read: $(<"$work/errors")"
    exit 3
fi
answer_parts
stop_at_failure
while read -r part; do
    cat "$work/counted.$part" || exit 4
done <"$work/parts"
