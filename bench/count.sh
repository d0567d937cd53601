#!/bin/sh
# count.sh PROFILE SEEDS LINES [MIX...]: generates SEEDS runs of LINES lines
# for each mix, takes them through the peer of that profile (release or
# checked) and counts lines by refusal number (0: accepted), and some signs
# of depth.
set -eu
here=$(dirname "$0")
peer=$here/peer/target/$1/peer
generate=$here/peer/target/release/generate
seeds=$2 lines=$3
shift 3
[ $# -gt 0 ] || set -- mixed nearly-full full-log long-log noisy
work=$(mktemp -d)
trap 'rm -rf "$work"' EXIT
for mix in "$@"; do
    : > "$work/in" && : > "$work/out"
    seed=1
    while [ "$seed" -le "$seeds" ]; do
        "$generate" "$seed" "$lines" "$mix" > "$work/one"
        "$peer" < "$work/one" > "$work/got"
        "$peer" --no-sound < "$work/one" | cmp -s - "$work/got"
        [ "$(wc -l < "$work/got")" -eq "$lines" ]
        # Some seeds leave the last newline out.
        { cat "$work/one"; [ $((seed % 4)) -ne 3 ] || echo; } >> "$work/in"
        { cat "$work/got"; } >> "$work/out"
        seed=$((seed + 1))
    done
    tr '\0' '?' < "$work/in" | LC_ALL=C paste -d '\t' "$work/out" - |
    LC_ALL=C awk -F '\t' -v mix="$mix" -v seeds="$seeds" -v lines="$lines" '
        { split($1, o, " "); split($2, i, " "); refusal[o[1]]++; event[i[1]] += o[1] == 0 }
        (NR - 1) % lines == 0 { last = 8 }
        o[1] == 0 && i[1] == "vote" && i[3] == "prepared" && /app-aborted/ { noroom++ }
        o[1] == 0 && i[1] == "reenlisted" && o[2] - last >= 36 { several++ }
        o[1] == 0 && o[3] > most { most = o[3] }
        o[1] == 0 { n = split($1, w, " "); for (k = 4; k <= n; k++) { sub(":.*", "", w[k]); signal[w[k]]++ } }
        { last = o[2] }
        END {
            printf "%s: %d seeds, %d lines, accepted %d; refused", mix, seeds, NR, refusal[0]
            for (r = 1; r <= 16; r++) if (refusal[r]) printf " %d:%d", r, refusal[r]
            printf "\n  events accepted:"
            split("begin enlist commit rollback zdone vote sp ack lost ask reenlisted restart", e, " ")
            for (k = 1; k <= 12; k++) printf " %s %d", e[k], event[e[k]]
            printf "\n  signals:"
            split("zero prepare single commit abort app-committed app-aborted app-in-doubt answer-committed answer-aborted answer-not-yet", s, " ")
            for (k = 1; k <= 11; k++) printf " %s %d", s[k], signal[s[k]]
            printf "\n  aborts for lack of room %d, several forgets at once %d, most signals %d\n", noroom, several, most
        }'
done
