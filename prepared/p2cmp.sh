#!/bin/bash
# p2cmp.sh IMG N NAMES: min byte time
img=$1; n=$2; shift 2
for i in $(seq $n); do for v in "$@"; do echo $v $(./d-$v bimgs/$img); done; done | awk '{k=$1; c=$12; s=$14; b=$16; if(!(k in B)||b<B[k])B[k]=b; if(!(k in C)||c<C[k])C[k]=c} END{for(k in B) print k,"call",C[k],"byte",B[k]}' | sort
