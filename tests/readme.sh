#!/bin/sh
# Runs the examples of README.md and docs/GUIDE.md, and compares what they print: run ./icerepo once before, since nothing is
# built here. Where ICE_PROGRAM names another program, that one is run. A block ```sh is run, and the block ```text behind it,
# if there is one before the next ```sh, has what it prints; without one it prints nothing. The examples of a page are run one
# after the other in one folder, in which ./icerepo is the program. Ids that are drawn at random, and times, differ each time:
# both sides are compared with their ids numbered in the order in which the page has them, and without times.
# Needs sh, awk, coreutils (date as GNU has it), diffutils and sed.

here=$(CDPATH='' cd -P -- "$(dirname "$0")" && pwd -P)
top=${here%/*}
program=${ICE_PROGRAM:-$top/crates/ice_cli/out/ice_cli}
[ -x "$program" ] || { echo 'readme: there is no program yet; run ./icerepo once' >&2; exit 1; }
program=$(CDPATH='' cd -P -- "$(dirname "$program")" && pwd -P)/$(basename "$program")
room=$(mktemp -d "${TMPDIR:-/tmp}/readme-XXXXXX") || exit
failed=0
trap 'rm -rf "$room"' EXIT
trap 'exit 1' HUP INT TERM

# Cuts the page $1 into files in the folder $2: N.sh, its line in N.line, and N.text; how many there are.
cut_page() {
    awk -v out="$2" '
        block != "" && /^```$/ { close(file); block = ""; next }
        block != "" { print > file; next }
        /^```sh$/ { block = "sh"; count++; file = out "/" count ".sh"; print NR > (out "/" count ".line"); printf "" > file; text = 0; next }
        /^```text$/ && count > 0 && !text { block = "text"; text = 1; file = out "/" count ".text"; printf "" > file; next }
        /^```/ { block = "other"; file = "/dev/null"; next }
        END { print count + 0 }' "$1"
}

# What is compared of a text: the marks "== N ==", which stand before each block, ids numbered by their first place, no times.
plain() {
    awk '
        {
            line = ""
            rest = $0
            while (match(rest, /[0-9A-Z]+/)) {
                word = substr(rest, RSTART, RLENGTH)
                if (RLENGTH == 20 && word != "1CECHNKREP0F1RSTCMT0" && word !~ /^00000/) {
                    if (!(word in number)) number[word] = ++ids
                    word = "ID" number[word]
                } else if (RLENGTH == 16 && word ~ /^[0-9]+$/) word = "TIME"
                line = line substr(rest, 1, RSTART - 1) word
                rest = substr(rest, RSTART + RLENGTH)
            }
            print line rest
        }'
}

# Runs the examples of the page $1.
run_page() {
    name=$(basename "$1" .md)
    blocks=$room/$name.blocks
    mkdir "$blocks" "$room/$name"
    count=$(cut_page "$1" "$blocks")
    [ "$count" -gt 0 ] || { echo "FAILED: $name has no examples"; failed=1; }
    ln -s "$program" "$room/$name/icerepo"
    ln -s "$top/examples" "$room/$name/examples"
    number=1
    while [ "$number" -le "$count" ]; do
        mark="== line $(cat "$blocks/$number.line") =="
        echo "$mark"
        [ ! -f "$blocks/$number.text" ] || cat "$blocks/$number.text"
        echo "$mark" >&3
        (cd "$room/$name" && sh "$blocks/$number.sh" </dev/null 2>&1) >&3
        number=$((number + 1))
    done >"$room/$name.wanted" 3>"$room/$name.came"
    plain <"$room/$name.wanted" >"$room/wanted"
    plain <"$room/$name.came" >"$room/came"
    if ! diff -U 4 "$room/wanted" "$room/came"; then
        failed=1
        echo "FAILED: the examples of $name print something else"
    fi
}

run_page "$top/README.md"
run_page "$top/docs/GUIDE.md"

[ "$failed" = 0 ] && echo 'readme: all well'
[ "$failed" = 0 ]
