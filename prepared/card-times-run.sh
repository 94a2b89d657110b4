#!/bin/bash
export LC_ALL=C RT_JOBS=1 TMPDIR=$WORK/c/ct2-tmp; mkdir -p $TMPDIR $WORK/c/ct2; cd $WORK/c/ct2
unset RATTLE_HOME RATTLE_TIMES MIMALLOC_PURGE_DELAY
for c in 98954c1 cd8d916; do
  rm -rf t; git clone -q $WORK/main t && cd t && git checkout -q $c
  /usr/bin/time -o ../t.time -f "%e %U %S" rt prove > ../t.log 2>&1; rc=$?
  echo "$c rc=$rc $(tail -1 ../t.time) $(tail -1 ../t.log)" >> ../times.txt; cd ..
done
