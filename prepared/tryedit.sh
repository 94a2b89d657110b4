#!/bin/bash
# tryedit.sh CLONE CRATE EDIT...: apply each edit in a throw-away copy of the clone (with its target) and show that rt check CRATE fails
C=$1; K=$2; shift 2
T=$(mktemp -d $WORK/try.XXXX); mkdir $T/crates; cp $C/crates.txt $T/; cp -r $C/target $T/ 2>/dev/null
for k in $(cut -d: -f1 $C/crates.txt | grep -v '^#'); do cp -r $C/crates/$k $T/crates/; rm -rf $T/crates/$k/must-fail; done
for e in "$@"; do
  cp -r $C/crates/$K/. $T/crates/$K/; rm -rf $T/crates/$K/must-fail
  python3 - "$C/crates/$K/must-fail/$e.edit" "$T/crates/$K" <<'PY'
import sys
L=open(sys.argv[1]).read().split('\n'); f=None; old=None
for l in L:
    if l.startswith('file: '): f=l[6:]
    elif l.startswith('old: '): old=l[5:]
    elif l.startswith('new:'):
        p=sys.argv[2]+'/'+f; t=open(p).read(); assert t.count(old)==1,(f,old,t.count(old)); open(p,'w').write(t.replace(old,l[5:]))
PY
  echo "== $e"; (cd $T && rt check $K 2>&1 | grep -E 'error|not proved|NOT PROVED|^rt: '$K | cut -c1-220 | head -4)
done
rm -rf $T
