#!/bin/bash
one(){ d=$(mktemp -d /dev/shm/inc.XXXX); export MIMALLOC_PURGE_DELAY=-1 TMPDIR=/dev/shm
bash $WORK/speed/one.sh $WORK/c/base $1 --incremental $d > $WORK/c/mods/$1.out 2>&1
find $d -type f -printf '%T@ %f\n' | sort -n | awk 'NR>1{printf "%7.3f %s\n",$1-p,$2} {p=$1}' > $WORK/c/mods/$1.mods
rm -rf $d; }
export -f one
grep -v '^#' $WORK/main/crates.txt | cut -d: -f1 | grep . | xargs -P 2 -I{} bash -c 'one {}'
