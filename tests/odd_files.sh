# Read by directory.sh, whose functions and directory `d` it uses: what isn't the program's own lies in a directory, or the
# program begins with closed streams. It never waits, reads or removes what isn't its own, nor follows a link beneath the
# directory. Where strace is there, calls of the system are made to fail, too.

# A copy of `d`, in which these tests work, and a folder elsewhere that has what a directory could have.
again() {
    rm -rf odd elsewhere
    cp -r d odd
    mkdir elsewhere
    echo mine >elsewhere/0
    echo mine >elsewhere/1
    echo mine >elsewhere/ref.json
}

# All that lies in a directory and elsewhere, links and pipes too, but for the file of the claim.
all_of() {
    (
        cd "$1" && find . ! -name icerepo.lock ! -type d -exec ls -lin --time-style=full-iso {} + | sort
        cd ../elsewhere && find . -exec ls -lidn --time-style=full-iso {} + | sort
    )
}

# Puts something in the place of a path.
odd() {
    rm -rf "$2"
    case $1 in
        pipe) mkfifo "$2" ;;
        device) ln -s /dev/zero "$2" ;;
        folder) mkdir -p "$2" ;;
        link) ln -s "$room/elsewhere/ref.json" "$2" ;;
        loose) ln -s "$room/elsewhere/none" "$2" ;;
        long) truncate -s 268435457 "$2" ;;
    esac
}

# The call of the program, which has ended soon, and has little memory: ICE_MEMORY in KiB, where that is set, as for a
# program that was built with a sanitizer, which wants more than there is.
soon() {
    (
        ulimit -v "${ICE_MEMORY:-4000000}"
        exec timeout 20 "$program" "$@"
    ) <given >printed 2>said
    echo "$?" >>said
    cat printed said | tr '\n' '|'
}

# What is odd at an object's name is a fault of the store at once, which names the call and its cause.
head=$(sed 's/.*:"\(.*\)"}/\1/' d/refs/branch.main/ref.json)
chunk=$(ls d/chunks)
for kind in pipe device folder link long; do
    why='look at "odd/%s": it is no plain file'
    [ "$kind" != long ] || why='open "odd/%s": it is longer than a file may be'
    again
    odd "$kind" odd/refs/branch.main/ref.json
    before=$(all_of odd)
    printf 'task a read branch main\nlist /\n' >given
    soon play --dir odd >/dev/null
    # shellcheck disable=SC2059
    same "a $kind at main's ref" "icerepo: $(printf "$why" refs/branch.main/ref.json)|icerepo: store fault|6|" "$(tr '\n' '|' <said)"
    same "a $kind at main's ref stays" "$before" "$(all_of odd)"
    again
    odd "$kind" "odd/snapshots/$head"
    soon play --dir odd >/dev/null
    # shellcheck disable=SC2059
    same "a $kind at a snapshot" "icerepo: $(printf "$why" "snapshots/$head")|icerepo: store fault|6|" "$(tr '\n' '|' <said)"
    again
    odd "$kind" "odd/chunks/$chunk"
    before=$(all_of odd)
    printf 'task a read branch main\nchunk /x 1\nturns\n' >given
    soon play --dir odd >/dev/null
    # shellcheck disable=SC2059
    same "a $kind at a chunk" "a refused 2 storefault|icerepo: $(printf "$why" "chunks/$chunk")|icerepo: store fault|6|" "$(sed -n '/^a/p' printed | cat - said | tr '\n' '|')"
    same "a $kind at a chunk stays" "$before" "$(all_of odd)"
done

# Another ref that is odd is told, too, and not passed over.
for kind in pipe device folder link; do
    again
    mkdir odd/refs/branch.side
    odd "$kind" odd/refs/branch.side/ref.json
    printf '' >given
    soon play --dir odd >/dev/null
    same "a $kind at another ref" 'icerepo: look at "odd/refs/branch.side/ref.json": it is no plain file|icerepo: store fault|6|' "$(tr '\n' '|' <said)"
done

# The lock is a plain file, or the directory isn't opened; and no file is made elsewhere.
for kind in pipe device folder link loose; do
    again
    odd "$kind" odd/icerepo.lock
    before=$(all_of odd)
    same "a $kind as the lock" "icerepo: no store: \"odd\": it can't be listed or written: lock: it is no plain file|8|" "$(soon play --dir odd)"
    same "a $kind as the lock stays" "$before" "$(all_of odd)"
done

# A link to a folder isn't followed, wherever it lies: nothing elsewhere is read, removed or made.
printf 'task a write main 0 fail\nfill /x 0 05\ncommit linked\n' >given
for folder in icerepo.new refs refs/branch.main snapshots manifests transactions chunks; do
    again
    rm -rf "odd/$folder"
    ln -s "$room/elsewhere" "odd/$folder"
    before=$(all_of odd)
    soon play --dir odd >/dev/null
    same "a link at $folder" 'icerepo: store fault|6|' "$(tail -n 2 said | tr '\n' '|')"
    same "a link at $folder tells its cause" 1 "$(grep -c 'is no folder$' said)"
    same "a link at $folder leads nowhere" mine "$(cat elsewhere/0)"
    same "a link at $folder adds nothing" "$(printf '0\n1\nref.json')" "$(ls elsewhere)"
done

# The directory itself may be one.
again
ln -s odd alias
soon play --dir alias >/dev/null
same 'a link to the directory' 'a committed|0' "$(sed -n 's/^\(a committed\) .*/\1|/p' printed | tr -d '\n')$(cat said)"

# What is left aside is removed where it is a plain file with a number's name; all else stays, and stops nothing.
again
mkdir -p odd/icerepo.new/0 odd/icerepo.new/7/8 odd/snapshots/folder
ln -s "$room/elsewhere/0" odd/icerepo.new/1
mkfifo odd/icerepo.new/2
echo cut >odd/icerepo.new/3
for name in +1 007 -0 4294967296 1.5 ' 1' ref.json; do
    echo mine >"odd/icerepo.new/$name"
done
echo mine >odd/snapshots/0000
echo mine >"odd/snapshots/$head.old"
echo mine >odd/refs/branch.plain
echo mine >odd/unknown
before=$(all_of odd | grep -v -e '/3$' -e branch.main)
soon play --dir odd >/dev/null
same 'a commit beside odd files' 'a committed|0' "$(sed -n 's/^\(a committed\) .*/\1|/p' printed | tr -d '\n')$(cat said)"
soon play --dir odd >/dev/null
same 'odd files stay' "$before" "$(all_of odd | grep -F "$before")"
same 'what was cut off is gone' no "$([ -e odd/icerepo.new/3 ] && echo yes || echo no)"

# Closed streams: no file of the directory takes their place, and a closed standard output comes before all else.
again
before=$(contents odd)
"$program" play --dir odd <given 2>said >&-
same 'a closed standard output' '5|icerepo: write fault|' "$?|$(tr '\n' '|' <said)"
same 'it has done nothing' "$before" "$(contents odd)"
mkdir empty
"$program" grow 1 --dir empty >&- 2>&- <&-
same 'all streams are closed' 5 "$?"
same 'it has made nothing' '' "$(ls empty)"
"$program" play --dir empty >printed 2>said <&-
same 'a closed standard input' '4|icerepo: read fault|' "$?|$(cat printed said | tr '\n' '|')"
printf 'no script\n' >wrong
"$program" play --dir empty >printed 2>&- <wrong
same 'a closed standard error' '3|' "$?|$(cat printed)"
"$program" grow 1 --dir empty >printed 2>&- <&-
same 'closed input and error' '0|tasks 2 committed 2 refused 0 events 16' "$?|$(cat printed)"
same 'the lock is empty' 0 "$(wc -c <empty/icerepo.lock | tr -d ' ')"

# A program that was killed has no claim any more.
rm odd/icerepo.lock
"$program" play --dir odd <script >/dev/null 2>&1 &
killed=$!
exec 3>script
wait_for_claim odd
same 'a program at work' 'icerepo: no store: "odd": another program uses it|8|' "$(call play --dir odd)"
kill -9 "$killed"
wait "$killed" 2>/dev/null
exec 3>&-
printf '' >given
call play --dir odd >/dev/null
same 'a killed program claims nothing' 0 "$(cat said)"

# The branch main that is lost is told, if the repository was used.
lost="icerepo: the branch main isn't there, but other refs or snapshots are"
again
rm odd/refs/branch.main/ref.json
call play --dir odd >/dev/null
same 'main is lost' "$lost|0|" "$(tr '\n' '|' <said)"
again
rm -r odd/refs
call play --dir odd >/dev/null
same 'all refs are lost' "$lost|0|" "$(tr '\n' '|' <said)"
mkdir -p begun/snapshots
cp d/snapshots/1CECHNKREP0F1RSTCMT0 begun/snapshots
call play --dir begun >/dev/null
same 'one that was cut off at its beginning' 0 "$(cat said)"

# Calls of the system that fail.
if strace -o /dev/null true 2>/dev/null; then
    # The flush that a new folder's name needs fails once: what is told as done afterwards has made up for it.
    printf 'task n write main 0 fail\ngroup /\narray /z uint8 1200 600 0\narray /s uint8 4 2 0\nset /s 0 0102\ncommit z\n' >given
    mkdir flushed
    call play --dir flushed >/dev/null
    printf 'task a write main 0 fail\nfill /z 0 07\ncommit one\ntask b write main 0 fail\nfill /z 1 08\ncommit two\nturns\n' >given
    cp -r flushed counted
    strace -f -o trace -e trace=mkdir,mkdirat,fsync "$program" play --dir counted <given >/dev/null 2>&1
    which=$(sed -n '/mkdir[^"]*"counted\/chunks"/q;p' trace | grep -c fsync)
    strace -f -o trace -e trace=openat,open,mkdir,mkdirat,fsync,rename,renameat2 -e inject=fsync:error=EIO:when=$((which + 1)) \
        "$program" play --dir flushed <given >printed 2>said
    same 'a failed flush is told' 'a refused 2 storefault|b committed|icerepo: flush "flushed/chunks/' "$(sed -n 's/^\(a refused.*\|b committed\).*/\1/p' printed | cat - said | sed 's/\(chunks\/\).*/\1/' | sed '3q' | tr '\n' '|' | sed 's/|$//')"
    # Behind the failed flush of the directory it is opened and flushed again, before the ref is moved.
    again=$(sed -n '/INJECTED/,/rename/p' trace | grep -A1 'open[^"]*"flushed"' | grep -c 'fsync.* = 0')
    same 'and made up for' yes "$([ "$again" -ge 1 ] && echo yes || echo no)"

    # Whatever the first call is that fails, it is named with its cause.
    printf 'task a write main 0 fail\ngroup /new\ncommit never\nturns\n' >given
    for case in link:EPERM:link 'rename:ENOSPC:move' 'mkdir:EROFS:make folder' 'unlink:EACCES:remove'; do
        again
        rm -rf odd/icerepo.new
        system=${case%%:*}
        error=${case#*:}
        error=${error%%:*}
        strace -f -o trace -e trace="$system" -e inject="$system:error=$error" "$program" play --dir odd <given >printed 2>said
        same "$system fails" "icerepo: ${case##*:} \"odd/|icerepo: store fault|" "$(sed 's/\("odd\/\).*(os error [0-9]*)$/\1/' said | tr '\n' '|')"
    done

    # The directory itself is listed once.
    printf '' >given
    strace -f -o trace -e trace=openat,open "$program" play --dir d <given >/dev/null 2>&1
    same 'the directory is listed once' 1 "$(grep O_DIRECTORY trace | grep -c '"d/*"')"

    # A run that commits lists the refs and what lies aside, and no folder of other objects, however many there are.
    printf 'task a write main 0 fail\ngroup /beside\ncommit beside\n' >given
    strace -f -o trace -e trace=openat,open "$program" play --dir d <given >/dev/null 2>&1
    same 'what a commit lists' 'd/|d/icerepo.new/|d/refs/|' "$(sed -n 's/.*"\(d\/[^"]*\)".*O_DIRECTORY.*/\1/p' trace | sort -u | tr '\n' '|')"
fi
