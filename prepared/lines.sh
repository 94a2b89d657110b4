#!/bin/bash
# lines.sh FROM [TO]: lines by crate, more and fewer
git diff $1 ${2:-HEAD} --numstat -- crates | awk '{split($3,p,"/"); a[p[2]]+=$1; d[p[2]]+=$2} END{for(c in a) print c " +" a[c] " -" d[c]}' | sort | paste -sd, | sed 's/,/, /g; s/ -/ −/g'
