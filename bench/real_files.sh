#!/bin/bash
# Runs the program over real files that fail: a full disk, folders and links as names, files that grow or never end, a closed output.
#
# usage: bench/real_files.sh PROGRAM           (Linux; the full disk needs root or a small folder named by SMALL)
#
# Prints one line a check and ends with 1 where one fails. Run by hand; the gate never runs it.
set -u
[ $# -eq 1 ] || { sed -n '2,6p' "$0" | sed 's/^# \{0,1\}//'; exit 2; }
opc=$(realpath "$1")
here=$(cd "$(dirname "$0")" && pwd)
work=$(mktemp -d)
mounted=
trap '[ -n "$mounted" ] && umount "$work/small"; rm -rf "$work"' EXIT
cd "$work" || exit 2
PYTHONPATH=$here PYTHONDONTWRITEBYTECODE=1 python3 -c 'import hostile; hostile.write_files(".", hostile.contents())' || exit 2
printf old > mask; printf old > table
ulimit -c 0
failed=0

# check NAME STATUS SAID COMMAND..: the status and the first line that is said
check() {
    local name=$1 status=$2 said=$3; shift 3
    local out got; out=$(timeout 60 "$@" 2>&1 </dev/null); got=$?
    if [ "$got" -eq "$status" ] && [[ $out == $said ]]; then echo "ok: $name"
    else echo "FAILED: $name: status $got, said ${out:0:120}"; failed=1; fi
}
same() { if cmp -s "$2" "$3"; then echo "ok: $1"; else echo "FAILED: $1"; failed=1; fi; }

"$opc" correct layout kernels rules whole_mask whole_table > whole_said || { echo "FAILED: a plain run"; exit 1; }
end=$(cat whole_said)

# inputs
check "an absent layout" 3 "opc: cannot read absent" "$opc" correct absent kernels rules mask table
check "a folder as the layout" 3 "opc: cannot read ." "$opc" correct . kernels rules mask table
check "an endless layout" 5 "opc: layout: too long" "$opc" correct /dev/zero kernels rules mask table
check "an endless kernel file" 6 "opc: kernels: too long" "$opc" correct layout /dev/zero rules mask table
check "an endless rule file" 7 "opc: rules: too long" "$opc" correct layout kernels /dev/zero mask table
check "an empty layout" 5 "opc: layout: cut at 0" "$opc" correct /dev/null kernels rules mask table
printf old > old; same "refusals leave the mask as it was" mask old; same "refusals leave the table as it was" table old

# a layout that comes in small pieces through a pipe: short reads
mkfifo pipe
(python3 -c '
import sys, time
content = open("layout", "rb").read()
for i in range(0, len(content), 7):
    sys.stdout.buffer.write(content[i:i + 7]); sys.stdout.buffer.flush(); time.sleep(0.002)' > pipe) &
out=$(timeout 60 "$opc" correct pipe kernels rules m t); got=$?; wait
if [ $got -eq 0 ] && [ "$out" = "$end" ]; then echo "ok: a layout through a pipe, seven bytes at a time"; else echo "FAILED: a pipe: $got $out"; failed=1; fi
same "its mask is that of the plain run" m whole_mask

# a layout that grows while it is read: what is read is judged, and the run ends
python3 -c '
import time
with open("growing", "wb", buffering=0) as file:
    begin = time.time()
    while time.time() - begin < 8: file.write(bytes(65536))' &
grower=$!
while [ ! -s growing ]; do sleep 0.05; done
timeout 60 "$opc" correct growing kernels rules mask table > said; got=$?
kill $grower 2>/dev/null; wait $grower 2>/dev/null; rm -f growing
if [ $got -eq 5 ]; then echo "ok: a layout that grows ($(cat said))"; else echo "FAILED: a layout that grows: $got $(cat said)"; failed=1; fi

# outputs
check "a folder as the mask" 4 "opc: cannot write folder" bash -c "mkdir -p folder; '$opc' correct layout kernels rules folder table"
same "then the table is as it was" table old
check "a mask in a folder that isn't there" 4 "opc: cannot write absent/mask" "$opc" correct layout kernels rules absent/mask table
check "a folder as the table" 4 "opc: cannot write folder" "$opc" correct layout kernels rules m folder
same "then the mask is whole" m whole_mask
check "a full device as the mask" 4 "opc: cannot write /dev/full" "$opc" correct layout kernels rules /dev/full table
same "then the table is as it was" table old
check "a full device as the table" 4 "opc: cannot write /dev/full" "$opc" correct layout kernels rules m /dev/full
cp layout layout_copy; ln -sf layout_copy link
check "the layout, by a link, as the mask" 0 "$end" "$opc" correct layout_copy kernels rules link t
same "then the link's file is the mask" layout_copy whole_mask
cp rules rules_copy; ln rules_copy hard
check "the rule file, by a hard link, as the table" 0 "$end" "$opc" correct layout kernels rules_copy m hard
same "then both names hold the table" rules_copy whole_table
check "one name as input and output" 2 "opc: words" "$opc" correct layout kernels rules layout table
check "one name for both outputs" 2 "opc: words" "$opc" correct layout kernels rules both both

# the answer can't be said
"$opc" correct layout kernels rules m t > /dev/full; got=$?
if [ $got -eq 4 ]; then echo "ok: standard output is full"; else echo "FAILED: standard output is full: $got"; failed=1; fi
same "then the mask is whole" m whole_mask; same "then the table is whole" t whole_table
"$opc" correct layout kernels rules m t >&-; got=$?
if [ $got -eq 4 ]; then echo "ok: standard output is closed"; else echo "FAILED: standard output is closed: $got"; failed=1; fi

# a full disk: a file system of 16 KiB, or the folder SMALL that the caller made so small
small=${SMALL:-}
if [ -z "$small" ]; then
    mkdir small
    if mount -t tmpfs -o size=16k tmpfs small 2>/dev/null; then mounted=yes; small=small; fi
fi
if [ -n "$small" ]; then
    head -c 12288 /dev/zero > "$small/filler"
    out=$(timeout 60 "$opc" correct layout kernels rules m "$small/table"); got=$?
    size=$(stat -c %s "$small/table" 2>/dev/null || echo 0)
    if [ $got -eq 4 ] && [ "$out" = "opc: cannot write $small/table" ] && cmp -s -n "$size" "$small/table" whole_table; then
        echo "ok: a full disk: the table has its first $size bytes of $(stat -c %s whole_table)"
    else echo "FAILED: a full disk: status $got, said $out, $size bytes"; failed=1; fi
    same "then the mask is whole" m whole_mask
else echo "not run: a full disk (no leave to mount; name a small folder by SMALL)"; fi

# each command: each input absent or endless, each output a folder or a full device, and an answer that can't be said
list() { PYTHONPATH=$here PYTHONDONTWRITEBYTECODE=1 python3 -c "import hostile; print(*$1, sep='\n')"; }
# run_but COMMAND OLD NEW: a run of the command with fresh outputs and a word in place of another
run_but() {
    local command=$1 old=$2 new=$3 words=() word
    while read -r word; do [ "$word" = "$old" ] && word=$new; words+=("$word"); done < <(list "hostile.words('$command', '.')")
    for word in mask table; do printf old > $word; done
    "$opc" "${words[@]}"
}
# stands NAME SO_MANY OUTPUT..: so many outputs are those of the whole run, and the others as they were
stands() {
    local name=$1 whole=$2 output; shift 2
    for output; do
        if [ "$whole" -gt 0 ]; then same "$name: $output is whole" "$output" "whole_$output"; else same "$name: $output is as it was" "$output" old; fi
        whole=$((whole - 1))
    done
}
export opc here
export -f run_but list
for command in $(list "[it for it in hostile.COMMANDS if it != 'trial']"); do
    run_but "$command" - - > said; got=$?
    if [ $got -eq 2 ]; then echo "not run: $command isn't a command of this program"; continue; fi
    outputs=($(list "hostile.outputs('$command')"))
    for output in "${outputs[@]}"; do cp "$output" "whole_$output"; done
    inputs=$(list "dict.fromkeys(it for it in hostile.words('$command', '.')[1:] if it[:2] == './' and it[2:] not in hostile.outputs('$command'))")
    for input in $inputs; do
        check "$command: $input is absent" 3 "opc: cannot read ./absent" bash -c "run_but $command $input ./absent"
        stands "$command: $input is absent" 0 "${outputs[@]}"
        check "$command: $input is endless" "$(case $input in ./layout) echo 5 ;; ./kernels) echo 6 ;; ./rules) echo 7 ;; *) echo 8 ;; esac)" \
            "opc: ${input#./}: too long" bash -c "run_but $command $input /dev/zero"
        stands "$command: $input is endless" 0 "${outputs[@]}"
    done
    at=0
    for output in "${outputs[@]}"; do
        for place in ./folder /dev/full; do
            check "$command: $output is $place" 4 "opc: cannot write $place" bash -c "run_but $command ./$output $place"
            stands "$command: $output is $place" "$at" "${outputs[@]:0:at}"
            stands "$command: $output is $place" 0 "${outputs[@]:at + 1}"
        done
        at=$((at + 1))
    done
    check "$command: the answer can't be said" 4 "" bash -c "run_but $command - - > /dev/full"
    stands "$command: the answer can't be said" 9 "${outputs[@]}"
done
"$opc" correct layout kernels rules whole_mask whole_table > /dev/null

# signals that interrupt calls: the run is stopped and goes on, many times
"$opc" correct layout kernels rules m t > said & child=$!
for _ in 1 2 3 4 5 6 7 8; do kill -STOP $child 2>/dev/null; kill -CONT $child 2>/dev/null; done
wait $child; got=$?
if [ $got -eq 0 ] && cmp -s m whole_mask; then echo "ok: a run that is stopped and goes on"; else echo "FAILED: a run that is stopped: $got"; failed=1; fi
exit $failed
