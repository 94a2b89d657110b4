#!/bin/bash
# mods.sh TREE CRATE [N]: the slowest modules of a crate, by when each was written into the incremental folder
d=$(mktemp -d /dev/shm/inc.XXXX); export MIMALLOC_PURGE_DELAY=-1 TMPDIR=/dev/shm
bash $WORK/speed/one.sh $1 $2 --incremental $d 2>&1 | tail -1
find $d -type f -printf '%T@ %P\n' | sort -n | awk 'NR>1{printf "%7.2f %s\n",$1-p,$2} {p=$1}' | sort -rn | head -${3:-30}
find $d -type f | wc -l
rm -rf $d
