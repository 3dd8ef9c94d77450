#!/bin/sh
# Tries the launcher over a small repository, with a kit of its own, whose command rt proves nothing and makes a program of
# the sources' text. Needs sh, coreutils, diffutils, findutils, grep, sed and awk.

launcher=$(CDPATH='' cd -P -- "$(dirname "$0")/.." && pwd -P)/icerepo
room=$(mktemp -d "${TMPDIR:-/tmp}/launcher-XXXXXX") || exit
failed=0
trap 'rm -rf "$room"' EXIT
trap 'exit 1' HUP INT TERM

# What is wanted, and what came.
same() {
    if [ "$2" != "$3" ]; then
        failed=$((failed + 1))
        printf 'FAILED: %s\n  wanted: %s\n  came:   %s\n' "$1" "$2" "$3"
    fi
}

made=$room/made
tried=$room/tried
export ROOM="$room"
mkdir -p "$room/bin" "$room/tmp" "$room/a kit/bin" "$room/a kit/toolchain/bin"
export TMPDIR="$room/tmp"

# Builds what it is asked for in the way of the kit: rt ci leaves a program in out/, and rt try none but what the linker of
# its kit made, where it runs.
cat >"$room/a kit/bin/rt" <<'RT'
#!/bin/sh
case $* in
    version) exec cat "$ROOM/kit" ;;
    doc) exec echo "$ROOM/a kit/START-HERE.md" ;;
esac
[ -z "$(cat)" ] || exit 3
case $* in
    ci) echo one >>"$ROOM/made" ;;
    'try --steps 1 -- --version') echo one >>"$ROOM/tried" && cd ../.. ;;
    *) exit 3 ;;
esac
if [ -f "$ROOM/slow" ]; then
    sleep 100 &
    echo $! >"$ROOM/child"
    echo "$TMPDIR" >"$TMPDIR/left"
    wait
fi
[ ! -f "$ROOM/edits" ] || echo meanwhile >>"$(cat "$ROOM/edits")"
[ ! -f "$ROOM/refuses" ] || { echo refused; exit 1; }

# Writes a line to the log, and waits until the launcher has said how many crates are proved.
prove() {
    echo "$1"
    tries=0
    until grep -q "$2 of 3" "$ROOM/said" || [ "$tries" -ge 200 ]; do
        sleep 0.05
        tries=$((tries + 1))
    done
}
if [ -f "$ROOM/tells" ]; then
    echo 'rt: low: its tests are proved'
    prove 'rt: low proved' 1
    sleep 0.8
    prove 'rt: middle is kept: an earlier run proved it' 2
    echo 'rt: other NOT PROVED'
    prove 'rt: ice_cli proved' 3
fi

write() {
    echo '#!/bin/sh'
    echo "echo '$*$(cat crates/*/s*/* | tr '\n' ' ')'"
    echo 'echo "$# $*"; cat; exit "${1:-0}"'
}
if [ "$1" = ci ]; then
    mkdir crates/ice_cli/out
    write >crates/ice_cli/out/ice_cli
    chmod 755 crates/ice_cli/out/ice_cli
else
    write 'unproved: ' >"$TMPDIR/input"
    cd "$TMPDIR" && env -i "${0%/bin/rt}/toolchain/bin/ld.lld" -o program input && rm program
fi
RT
cat >"$room/a kit/toolchain/bin/ld.lld" <<'LINKER'
#!/bin/sh
cp "$3" "$2" && chmod 755 "$2"
LINKER
: >"$room/a kit/bin/rtlib.py"
chmod 755 "$room/a kit/bin/rt" "$room/a kit/toolchain/bin/ld.lld"
ln -s "$room/a kit/bin/rt" "$room/bin/rt"

# The launcher's longer sleep is short here.
printf '#!/bin/sh\n[ "$1" != 5 ] || set -- 0.2\nexec /bin/sleep "$@"\n' >"$room/bin/sleep"
chmod 755 "$room/bin/sleep"
PATH=$room/bin:/usr/bin:/bin
echo kit one >"$room/kit"

top="$room/a folder's name"
for it in low other ice_cli; do
    mkdir -p "$top/crates/$it/src" "$top/crates/$it/specs"
    echo "$it" >"$top/crates/$it/src/lib.rt"
done
echo more >"$top/crates/low/specs/More.antt"
printf '# crates\nice_cli may_wait=1: middle, serde\nmiddle:low\nother:\nlow:\n' >"$top/crates.txt"
mkdir -p "$top/crates/middle/src"
echo middle >"$top/crates/middle/src/lib.rt"
echo 'Handles allowed: none.' >"$top/HANDLES"
cp "$launcher" "$top/icerepo"
out=$top/crates/ice_cli/out

# How many builds there were since this was asked; with a word, how many that prove nothing.
builds() {
    set -- "${1+$tried}"
    set -- "${1:-$made}"
    [ ! -f "$1" ] || wc -l <"$1" | tr -d ' '
    rm -f "$1"
}
call() {
    "$top/icerepo" "$@" 2>"$room/said"
}

# A build, what it says, and what passes through.
same 'first call' 'ice_cli more low middle |2 0 b  c|in|' "$(echo in | call 0 'b  c' | tr '\n' '|')"
same 'it is built once' 1 "$(builds)"
same 'one line is said' 1 "$(wc -l <"$room/said" | tr -d ' ')"
same 'it names the log' yes "$(grep -qF "$out/build.log" "$room/said" && echo yes)"
call 7 </dev/null >/dev/null
same 'the status passes through' 7 $?
same 'what is said by a built program' '' "$(cat "$room/said")"
same 'no second build' '' "$(builds)"

# How far a build is, said where that changed.
echo again >>"$top/crates/middle/src/lib.rt"
true >"$room/tells"
call </dev/null >/dev/null
rm "$room/tells"
same 'what is said of a long build' 'icerepo: 1 of 3 crates proved|icerepo: 2 of 3 crates proved|icerepo: 3 of 3 crates proved|' "$(sed 1d "$room/said" | tr '\n' '|')"
sed -i '$d' "$top/crates/middle/src/lib.rt"
call </dev/null >/dev/null
same 'two builds' 2 "$(builds)"

# Times decide nothing.
touch "$top/crates/low/src/lib.rt" "$top/crates.txt"
call </dev/null >/dev/null
touch -d '2001-01-01' "$out/ice_cli" "$out/ice_cli.sum"
call </dev/null >/dev/null
same 'no build for a touched file' '' "$(builds)"
for how in -a -r; do
    cp "$how" "$top" "$room/copy $how"
    same "copied by cp $how" 'ice_cli more low middle |0 ' "$("$room/copy $how/icerepo" </dev/null | head -n 2 | tr '\n' '|' | sed 's/|$//')"
done
same 'no build in a copy' '' "$(builds)"

# Content decides.
change() {
    call </dev/null >/dev/null
    builds
}
echo changed >>"$top/crates/low/src/lib.rt"
same 'a changed source' 1 "$(change)"
same 'a changed source is what runs' 'ice_cli more low changed middle ' "$(call </dev/null | head -n 1)"
cp -p "$top/crates/low/src/lib.rt" "$room/lib.rt"
sed -i 's/changed/CHANGED/' "$top/crates/low/src/lib.rt"
touch -r "$room/lib.rt" "$top/crates/low/src/lib.rt"
same 'a change of the same size and time' 1 "$(change)"
rm "$top/crates/low/specs/More.antt"
same 'a deleted source' 1 "$(change)"
echo more >"$top/crates/low/specs/Other.antt"
same 'an added source' 1 "$(change)"
mv "$top/crates/low/specs/Other.antt" "$top/crates/low/specs/Another.antt"
same 'a source of another name' 1 "$(change)"
echo '# more' >>"$top/crates.txt"
same 'a changed list of crates' 1 "$(change)"
echo changed >>"$top/crates/other/src/lib.rt"
echo text >"$top/crates/low/src/notes.md"
same 'what the program does not stand on' '' "$(change)"
echo kit two >"$room/kit"
touch "$room/bin/rt"
same 'another kit' 1 "$(change)"
echo 'echo another' >"$out/ice_cli"
same 'another program in its place' 1 "$(change)"
rm -f "$out/ice_cli.sum" "$out/ice_cli.seen"
same 'a program of unknown sources' 1 "$(change)"
same 'and no more' '' "$(change)"
echo "$top/crates/low/src/lib.rt" >"$room/edits"
echo again >>"$top/crates/middle/src/lib.rt"
same 'a source that is changed during a build' 1 "$(change)"
rm "$room/edits"
same 'is built by the next call' 1 "$(change)"
same 'which is the last' '' "$(change)"

# A program of which nothing is proved, beside the proved one.
unproved='icerepo: nothing was proved of the program that runs now (--unproved)'
before=$(cat "$out/ice_cli")
wanted="unproved: $(call </dev/null | head -n 1)|2 0 b  c|in|"
same 'the first unproved call' "$wanted" "$(echo in | call --unproved 0 'b  c' | tr '\n' '|')"
same 'it says two lines' 2 "$(wc -l <"$room/said" | tr -d ' ')"
same 'the first names the log' yes "$(head -n 1 "$room/said" | grep -qF "$out/build.unproved.log" && echo yes)"
same 'the second says what runs' "$unproved" "$(tail -n 1 "$room/said")"
same 'the second unproved call' "$wanted" "$(echo in | call --unproved 0 'b  c' | tr '\n' '|')"
same 'it says one line' "$unproved" "$(cat "$room/said")"
same 'it was built once' 1 "$(builds unproved)"
same 'nothing was proved meanwhile' '' "$(builds)"
same 'the proved one stands as it did' "$before" "$(cat "$out/ice_cli")"
call --unproved 7 </dev/null >/dev/null
same 'the status passes through, too' 7 $?
same 'another word is the program'"'"'s' '2 0 --unproved' "$(call 0 --unproved </dev/null | tail -n 1)"
same 'and runs the proved one' '' "$(cat "$room/said")"
touch "$top/crates/low/src/lib.rt"
call --unproved </dev/null >/dev/null
same 'no build for a touched file there' '' "$(builds unproved)"
echo again >>"$top/crates/low/src/lib.rt"
came=$(call --unproved </dev/null | head -n 1)
same 'a changed source is built there' 1 "$(builds unproved)"
same 'and no more' '' "$(builds)"
same 'without the word it is proved' "$came" "unproved: $(call </dev/null | head -n 1)"
same 'once' 1 "$(builds)"
same 'and not compiled again' '' "$(builds unproved)"

# From other folders, through links, with no kit.
ln -s "a folder's name" "$room/link"
ln -s ../link/icerepo "$room/bin/one"
ln -s one "$room/bin/two"
same 'through links, from another folder' 'ice_cli' "$(cd / && "$room/bin/two" </dev/null | cut -d ' ' -f 1 | head -n 1)"
same 'by a word of the path' 'ice_cli' "$(cd "$room" && two </dev/null | cut -d ' ' -f 1 | head -n 1)"
same 'by its bare name' 'ice_cli' "$(cd "$top" && sh icerepo </dev/null | cut -d ' ' -f 1 | head -n 1)"
same 'no build by any of these' '' "$(builds)"
mv "$room/bin/rt" "$room/rt"
call </dev/null >/dev/null
same 'a built program needs no kit' 0 $?
echo again >>"$top/crates/low/src/lib.rt"
call </dev/null >/dev/null
same 'a build needs one' 125 $?
mv "$room/rt" "$room/bin/rt"

# Failures and signals leave the files as they were.
before=$(find "$top" "$room/tmp" ! -name 'build*.log' | sort)
true >"$room/refuses"
call </dev/null >"$room/came"
same 'a refused build' 125 $?
same 'nothing is run then' '' "$(cat "$room/came")"
same 'two lines are said' 2 "$(wc -l <"$room/said" | tr -d ' ')"
same 'the last names the log' yes "$(tail -n 1 "$room/said" | grep -qF "$out/build.log" && echo yes)"
same 'the log has the words' refused "$(cat "$out/build.log")"
call --unproved </dev/null >"$room/came"
same 'what cannot be compiled' 125 $?
same 'nothing is run there' '' "$(cat "$room/came")"
same 'the last line there names the log' yes "$(tail -n 1 "$room/said" | grep -qF "$out/build.unproved.log" && echo yes)"
rm "$room/refuses"
true >"$room/slow"
for it in INT:130 TERM:143 HUP:129; do
    for word in --help --unproved; do
        rm -f "$room/child"
        # (by a program that has no signal ignored, as sh has SIGINT in what it starts beside it, and nohup SIGHUP)
        env --default-signal=INT,HUP "$top/icerepo" "$word" </dev/null >/dev/null 2>&1 &
        tries=0
        while [ ! -s "$room/child" ] && [ "$tries" -lt 100 ]; do
            sleep 0.05
            tries=$((tries + 1))
        done
        kill -s "${it%:*}" "$!"
        wait "$!"
        same "a build by $word stopped by SIG${it%:*}" "${it#*:}" $?
        same "its children end at SIG${it%:*}" '' "$(ps -o stat= -p "$(cat "$room/child")" | grep -v Z)"
    done
done
rm "$room/slow"
same 'nothing is left behind' "$before" "$(find "$top" "$room/tmp" ! -name 'build*.log' | sort)"

[ "$failed" = 0 ] && echo 'launcher: all well'
[ "$failed" = 0 ]
