#!/bin/bash
# place.sh N NAMES..: N runs at each of 4 placements; geometric means over placements of call and byte ratios per image
cd $WORK/speed; n=$1; shift
for k in 0 16 32 48; do printf '.text\n.globl pad_%d\npad_%d:\n.skip %d, 0x90\n' $k $k $((k+1)) > pad$k.s; gcc -c pad$k.s -o pad$k.o; 
for v in plain "$@"; do if [ $v = plain ]; then L="plain/target/release/libplain.a -lpthread -ldl -lm"; else L=b-$v/libbukzarn.a; fi; [ d-$v-$k -nt ${L%% *} ] || gcc -O2 -o d-$v-$k pad$k.o drv2.c $L; done; done
for i in $(seq $n); do for k in 0 16 32 48; do for v in plain "$@"; do ./d-$v-$k bimgs/* | awk -v n=$v -v k=$k '{print n,k,$1,$11,$13,$15}'; done; done; done > pl.txt
python3 - "$@" <<'P'
import sys,math,collections
d={}
for l in open(__import__('os').environ['WORK']+'/speed/pl.txt'):
    p=l.split(); key=(p[0],p[1],p[2]); v=tuple(float(x) for x in p[3:6]); o=d.get(key,(9e9,)*3); d[key]=tuple(map(min,v,o))
imgs=sorted({k[2] for k in d}); ks=sorted({k[1] for k in d})
gm=lambda xs: math.exp(sum(map(math.log,xs))/len(xs))
six=[i for i in imgs if i[:4] in('240-','deep','mark','recu')]
for n in sys.argv[1:]:
    C=[];B=[];S=[]
    for i in imgs:
        r=[gm([d[n,k,i][j] for k in ks if d[n,k,i][j]>0] or [1])/gm([d['plain',k,i][j] for k in ks if d['plain',k,i][j]>0] or [1]) for j in range(3)]
        C.append(r[0]);B.append(r[2])
        if i in six: S.append(r[1])
        if len(sys.argv)==2: print('%-28s call %.3f step %.3f byte %.3f'%(i,*r))
    print(n,'call %.3f byte %.3f six %.3f'%(gm(C),gm(B),gm(S)), ' '.join('%s %.2f'%(i[:6],c) for i,c in zip(imgs,C)))
P
