#!/bin/bash
# logs processor seconds of each run: verb crate root seconds user sys maxKB
name=; prev=; root=
for a in "$@"; do [ "$prev" = --crate-name ] && name=$a; case $a in */src/lib.rt|*/src/main.rt) root=$a;; esac; prev=$a; done
exec 9>&2
/usr/bin/time -a -o ${RATTLE_TIMES:-$WORK/kit/times.txt} -f "$1 $name $root %e %U %S %M" /opt/rattle/on/x86_64/bin/rattle "$@"
