#!/bin/bash
# fe.sh NAME: front-end errors of b-NAME's copy
N=$1; B=$WORK/speed/b-$N; home=/opt/rattle; src=$2
w="--lib std=$home/libs/std/src/lib.rt --lib io=$home/libs/io/src/lib.rt --lib libc=$home/libs/libc/src/lib.rt --lib os=$home/libs/os/src/lib.rt"
reached=' ' todo=bukzarn
deps(){ grep "^$1:" $src/crates.txt | cut -d: -f2; }
while [ -n "$(echo $todo)" ]; do next=''; for d in $todo; do case "$reached" in *" $d "*) continue;; esac; reached="$reached$d "; next="$next $(deps $d)"; done; todo=$next; done
for n in $(python3 $WORK/speed/tools/levels.py $src/crates.txt); do case "$reached" in *" $n "*) ;; *) continue;; esac; w="$w --lib $n=$B/copy/$n/src/lib.rt"; done
/opt/rattle/on/x86_64/bin/rattle-print-mir $B/copy/main/src/main.rt --crate-name main $w 2>&1 | grep -A6 -E "error" | head -${3:-60} | cut -c1-240
