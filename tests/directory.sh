#!/bin/sh
# Tries the program over directories: run ./icerepo once before, since nothing is built here. Where ICE_PROGRAM names
# another program, that one is tried. Needs sh, coreutils, findutils, grep and sed.

here=$(CDPATH='' cd -P -- "$(dirname "$0")" && pwd -P)
program=${ICE_PROGRAM:-${here%/*}/crates/ice_cli/out/ice_cli}
[ -x "$program" ] || { echo 'directory: there is no program yet; run ./icerepo once' >&2; exit 1; }
room=$(mktemp -d "${TMPDIR:-/tmp}/directory-XXXXXX") || exit
failed=0
trap 'rm -rf "$room"' EXIT
trap 'exit 1' HUP INT TERM
cd "$room" || exit

# What is wanted, and what came.
same() {
    if [ "$2" != "$3" ]; then
        failed=$((failed + 1))
        printf 'FAILED: %s\n  wanted: %s\n  came:   %s\n' "$1" "$2" "$3"
    fi
}

# Calls the program with these words, and with the file `given` on standard input: what it prints, what it says on
# standard error, and its status, with a bar behind each line.
call() {
    "$program" "$@" <given >printed 2>said
    echo "$?" >>said
    cat printed said | tr '\n' '|'
}

# What lies in a directory, without the file of the claim: names and sums of contents.
contents() {
    find "$1" -type f ! -name icerepo.lock -exec sha256sum {} + | sort
}

# Waits until a program that was begun has claimed a directory, for some seconds at most.
wait_for_claim() {
    tries=0
    while [ ! -e "$1/icerepo.lock" ] && [ "$tries" -lt 100 ]; do
        sleep 0.05
        tries=$((tries + 1))
    done
    sleep 0.2
}

# The smallest commit, twice: ids are drawn at random, and the second task finds the first one's group.
printf 'task a write main 0 fail\ngroup /\ncommit first\n' >given
mkdir d
call play --dir d >came
id=$(sed -n 's/^a committed //p' printed)
same 'an id has 20 letters' 20 "$(printf %s "$id" | wc -c | tr -d ' ')"
same 'the first run' "a committed $id|branch main $id|0|" "$(cat came)"
same 'the second run' "a refused 2 nodeexists|branch main $id|1|" "$(call play --dir=d)"
same 'the branch names it' "{\"snapshot\":\"$id\"}" "$(cat d/refs/branch.main/ref.json)"
same 'its files' 'icerepo.lock|refs/branch.main/ref.json|snapshots/1CECHNKREP0F1RSTCMT0|'"snapshots/$id|transactions/$id|" \
    "$(cd d && find . -type f | sed 's/^..//' | sort | tr '\n' '|')"
mkdir other
call play --dir other >/dev/null
same 'another directory has other ids' no "$(grep -qF "$id" printed && echo yes || echo no)"

# A lease is gone when its task has ended. One that a killed program left keeps what it names, until its file is removed.
printf 'task a write main 0 fail\ngroup /\ncommit first\ntask b read branch main\nlease\nlist /\nturns\n' >given
mkdir leased
call play --dir leased >came
base=$(sed -n 's/^a committed //p' printed)
same 'a lease is shown by nothing' "a committed $base|b done|branch main $base|0|" "$(cat came)"
same 'no lease is left' '' "$(find leased/leases -type f)"
printf '{"snapshot":"%s"}' "$base" >leased/leases/0000008000000000000G
now=$(($(date +%s) + 1))000000
sleep 2
printf 'task c refs\nreset main id 1CECHNKREP0F1RSTCMT0\ntask d collect %s\nturns\n' "$now" >given
same 'a lease that was left keeps its snapshot' 'c done|d collected 0 0 0 0|branch main 1CECHNKREP0F1RSTCMT0|0|' "$(call play --dir leased)"
rm leased/leases/0000008000000000000G
printf 'task d collect %s\n' "$now" >given
same 'without it the snapshot goes' 'd collected 1 1 0 0|branch main 1CECHNKREP0F1RSTCMT0|0|' "$(call play --dir leased)"
rm -r leased

# What was written is read by later runs: chunks that are objects and chunks in manifests, tags, and the log with a property.
printf 'task a write main 0 fail\narray /x uint8 1200 600 0\narray /y uint8 4 2 0\nfill /x 1 07\nset /y 0 0102\nprop author ann lee\ncommit chunks\n' >given
printf 'task t refs\ntag v1 branch main\nturns\n' >>given
call play --dir d >/dev/null
same 'a second commit' 0 "$(cat said)"
printf 'task r read tag v1\nlist /\nchunk /y 0\nchunk /x 0\ntask l refs\nlog tag v1\nturns\n' >given
call play --dir d >/dev/null
same 'it is read' 'r 2 list array /x|r 2 list array /y|r 3 chunk 0102|r 4 fill|r done|' "$(sed -n '1,5p' printed | tr '\n' '|')"
same 'the log has three lines' 'chunks|first|Repository initialized|' "$(sed -n 's/^l 6 log [0-9A-Z]* [0-9]* //p' printed | tr '\n' '|')"
same 'and a property' 'l 6 prop author ann lee|' "$(sed -n '/ prop /p' printed | tr '\n' '|')"

# What is no directory. Nothing is read of the script then, nor made.
printf 'no script\n' >given
before=$(contents d)
echo text >file
for path in missing file file/beneath '' missing/beneath; do
    case $path in
        file*) why="it isn't a directory" ;;
        *) why='nothing is there' ;;
    esac
    same "the path '$path'" "icerepo: no store: \"$path\": $why|8|" "$(call play --dir "$path")"
done
same 'nothing is made' 'd file given other printed said ' "$(rm came; ls | tr '\n' ' ')"
help="For more information, try 'icerepo --help'."
same 'wrong words come first, and are named' \
    "icerepo: usage|error: a value is required for '--dir <dir>' but none was supplied||For more information, try '--help'.|2|" \
    "$(call play --dir)"
same 'an unknown command' "icerepo: usage|error: unknown command \"plya\"||$help|2|" "$(call plya --dir d)"
same 'no command' "icerepo: usage|error: a command is missing||$help|2|" "$(call)"
same 'words that are no text' "icerepo: usage|error: the words aren't UTF-8 text||$help|2|" "$(call play "$(printf '\377')")"
same 'short for help' "$(call --help)" "$(call -h)"
same 'short for the version' "$(call --version)" "$(call -V)"
same 'grow, too' 'icerepo: no store: "missing": nothing is there|8|' "$(call grow 1 --dir missing)"
same 'a refused script' 'icerepo: script line 1: word|3|' "$(call play --dir d)"

# Another program has claimed it: it has opened the directory as soon as the file of the claim is locked.
mkfifo script
mkdir claimed
"$program" play --dir claimed <script >first 2>&1 &
exec 3>script
printf 'task a write main 0 fail\ngroup /\ncommit first\n' >given
wait_for_claim claimed
same 'a second program' 'icerepo: no store: "claimed": another program uses it|8|' "$(call play --dir claimed)"
same 'it has done nothing' '' "$(contents claimed)"
cat given >&3
exec 3>&-
wait
same 'the first one goes on' 'a committed' "$(sed -n 's/^\(a committed\) .*/\1/p' first)"
same 'and then the next one may' 1 "$(call play --dir claimed >/dev/null; cat said)"

# Damaged files: each is told, and stands as it did.
damaged() {
    rm -rf broken
    cp -r d broken
    cat >"broken/$1"
    before=$(contents broken)
    call play --dir broken >/dev/null
    same "$1 is told" "$2" "$(sed -n 's/^a refused 1 \(badfile\|missing\).*/\1/p' printed) $(tail -n 1 said)"
    same "$1 stands as it did" "$before" "$(contents broken)"
}
head=$(sed 's/.*:"\(.*\)"}/\1/' d/refs/branch.main/ref.json)
printf 'task a read branch main\nlist /\n' >given
damaged refs/branch.main/ref.json 'badfile 1' </dev/null
printf '{"snapshot":' | damaged refs/branch.main/ref.json 'badfile 1'
printf '{"snapshot":"00000000000000000000"}' | damaged refs/branch.main/ref.json 'missing 1'
head -c 50 "d/snapshots/$head" | damaged "snapshots/$head" 'badfile 1'
printf 'text' | damaged "snapshots/$head" 'badfile 1'
cat "d/snapshots/$id" | damaged "snapshots/$head" 'badfile 1'

# Files that are no objects are passed over, and what a cut off program left aside is removed.
echo text >d/readme
echo text >d/refs/readme
echo text >d/snapshots/readme
mkdir -p d/refs/branch.empty d/icerepo.new
echo half >d/icerepo.new/0
echo mine >d/icerepo.new/readme
printf '' >given
same 'they are passed over' "branch main $head|tag v1 $head|0|" "$(call play --dir d)"
same 'what was left aside is gone' 'readme' "$(ls d/icerepo.new)"

# Where nothing more can be written, as on a full disk, the store fails, and what stood there stands and is read.
before=$(contents d)
printf 'task a write main 0 fail\ngroup /new\ncommit never\ntask r read tag v1\nchunk /y 0\nturns\n' >given
{
    (
        ulimit -f 0
        trap '' XFSZ
        exec "$program" play --dir d 2>&1
    ) <given
    echo $?
} | cat >printed
same 'a full directory' "a refused 3 storefault|r 5 chunk 0102|r done|branch main $head|tag v1 $head|icerepo: write \"d/\$KEY\": File too large (os error 27)|icerepo: store fault|6|" "$(sed 's|"d/[^"]*"|"d/$KEY"|' printed | tr '\n' '|')"
same 'it stands as it did' "$before" "$(contents d)"

# A check names exactly the object that is damaged: gone, a byte short, with the bytes of another one, or of none. The longest object has
# chunks, so that the bytes of each other one are fewer than it needs.
mkdir whole
printf 'task a write main 0 fail\ngroup /\narray /x uint8 1200 600 0\narray /y uint8 4 2 0\narray /z uint8 50000 50000 0\nfill /x 1 07\nset /y 0 0102\nfill /z 0 08\ncommit one\n' >given
printf 'task b write main 0 fail\nfill /x 0 09\nset /y 1 0304\ncommit two\ntask t refs\ntag v1 branch main\nturns\n' >>given
call play --dir whole >/dev/null
same 'a repository to check' 0 "$(cat said)"
same 'nothing is wrong' 'check checked 3 3|0|' "$(call check --dir whole)"
checked() {
    same "$1 is found" "check $2 $1|check refused 0 unsound 1|1|" "$(call check --dir harmed)"
    rm -rf harmed
}
(cd whole && find snapshots transactions manifests chunks -type f) | sort >objects
same 'its objects' 13 "$(wc -l <objects | tr -d ' ')"
while read -r key; do
    cp -r whole harmed && rm "harmed/$key"
    checked "$key" absent
    cp -r whole harmed && head -c -1 "whole/$key" >"harmed/$key"
    checked "$key" bad
    cp -r whole harmed && echo text >"harmed/$key"
    checked "$key" bad
    for other in $(grep -v "^$key\$" objects); do
        case $key in
            chunks/*) [ "$(wc -c <"whole/$other")" -lt "$(wc -c <"whole/$key")" ] || continue ;;
        esac
        cp -r whole harmed && cat "whole/$other" >"harmed/$key"
        checked "$key" bad
        break
    done
done <objects

# A mirror of a directory is the same files, and puts none of them a second time; a run over it commits.
mkdir copy
head=$(sed 's/.*:"\(.*\)"}/\1/' whole/refs/branch.main/ref.json)
objects() {
    (cd "$1" && contents .)
}
same 'a mirror' "branch main $head put|tag v1 $head put|mirrored 3 2 5 3|0|" "$(call mirror whole copy)"
same 'it has the same files' "$(objects whole)" "$(objects copy)"
same 'nothing is wrong with it' 'check checked 3 3|0|' "$(call check --dir copy)"
same 'a second mirror' "branch main $head kept|tag v1 $head kept|mirrored 0 0 0 0|0|" "$(call mirror whole copy)"
printf 'task a write main 0 fail\nset /y 0 0506\ncommit over\n' >given
call play --dir copy >/dev/null
same 'a run over it' 0 "$(cat said)"
call play --dir whole >/dev/null
head=$(sed -n 's/^a committed //p' printed)
same 'the source went on' "branch main $head put|mirrored 1 1 1 0|0|" "$(call mirror whole copy | sed 's/tag[^|]*|//')"
same 'nothing is wrong then' 'check checked 4 3|0|' "$(call check --dir copy)"

# What a mirror is refused by.
: >given
same 'one directory twice' 'icerepo: no store: "whole": another program uses it|8|' "$(call mirror whole whole)"
same 'no source' 'icerepo: no store: "missing": nothing is there|8|' "$(call mirror missing copy)"
same 'no target' 'icerepo: no store: "missing": nothing is there|8|' "$(call mirror whole missing)"
same 'one word' 2 "$(call mirror whole >/dev/null; tail -n 1 said)"
same 'three words' 2 "$(call mirror whole copy copy >/dev/null; tail -n 1 said)"
key=$(cd copy && find chunks -type f | head -n 1)
cp -r copy changed
head -c -1 "copy/$key" >"changed/$key"
before=$(contents changed)
same 'another object' "mirror refused differs $key|1|" "$(call mirror whole changed)"
same 'it stands as it did' "$before" "$(contents changed)"
cp -r whole harmed
rm "harmed/$key"
mkdir gap
same 'an object is missing' "mirror refused missing $key|1|" "$(call mirror harmed gap)"
same 'no ref was put' 'check checked 0 0' "$(call check --dir gap >/dev/null; cat printed)"
mkdir full
(
    ulimit -f 0
    trap '' XFSZ
    exec "$program" mirror whole full 2>&1
) | sed 's|"full/[^"]*"|"full/$KEY"|' >printed
same 'a full target' 'mirror refused targetfault|icerepo: write "full/$KEY": File too large (os error 27)|icerepo: store fault|' "$(tr '\n' '|' <printed)"

# Wherever a mirror is killed, what refs of the target name is whole, and the next one ends as if it had been the first.
{
    printf 'task a write main 0 fail\ngroup /\narray /x uint8 36000 600 0\n'
    chunk=0
    while [ "$chunk" -lt 60 ]; do
        echo "fill /x $chunk 07"
        chunk=$((chunk + 1))
    done
    printf 'commit many\ntask t refs\ntag v1 branch main\nturns\n'
} >given
mkdir many whole_copy
call play --dir many >/dev/null
: >given
begun=$(date +%s%N)
call mirror many whole_copy >/dev/null
took=$((($(date +%s%N) - begun) / 1000))
killed=0
round=0
while [ "$round" -lt 16 ]; do
    rm -rf part
    mkdir part
    "$program" mirror many part >/dev/null 2>&1 &
    moment=$((took * round / 16))
    sleep "$(printf '%d.%06d' $((moment / 1000000)) $((moment % 1000000)))"
    kill -9 $! 2>/dev/null
    { wait $!; } 2>/dev/null
    [ $? != 137 ] || killed=$((killed + 1))
    same "what was killed after $moment us is whole" 0 "$(call check --dir part >/dev/null; tail -n 1 said)"
    same "the next one after $moment us ends well" 0 "$(call mirror many part >/dev/null; tail -n 1 said)"
    same "the files after $moment us" "$(objects many)" "$(objects part)"
    round=$((round + 1))
done
same 'some were killed' yes "$([ "$killed" -gt 0 ] && echo yes || echo no)"

# A script that is made from a number.
mkdir grown
: >given
same 'a grown script' 'tasks 2 committed 2 refused 0 events 16|0|' "$(call grow 1 --dir grown)"

. "$here/odd_files.sh"

[ "$failed" = 0 ] && echo 'directory: all well'
[ "$failed" = 0 ]
