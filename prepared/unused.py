#!/usr/bin/env python3
# removes imported names that a file never uses; prints counts. usage: unused.py [--write] FILES
import re,sys
write='--write' in sys.argv
files=[f for f in sys.argv[1:] if not f.startswith('--')]
tot=0; alias=0
# tokens: whitespace, parens, braces, comma, semicolon, dots (field access) separated
def tokens(text):
    text=re.sub(r'--.*','',text)
    return set(re.split(r'[\s(){},;\.λ]+',text))
def mixfix_parts(n):
    return [p for p in n.split('_') if p]
for f in files:
    s=open(f,encoding='utf8').read()
    lines=s.split('\n')
    uses=[]; body=[]
    i=0
    while i<len(lines):
        l=lines[i]
        if l.startswith('use ') or l.startswith('pub use '):
            j=i
            t=l
            while t.count('{')>t.count('}'):
                j+=1; t+='\n'+lines[j]
            uses.append((i,j,t)); i=j+1
        else:
            body.append(l); i+=1
    btext='\n'.join(body)
    btext_nc=re.sub(r'--.*','',btext)
    toks=tokens(btext)
    toksdot=set(re.split(r'[\s(){},;]+',btext_nc))
    out=[]; changed=False
    removed=[]
    rep={}
    for (a,b,t) in uses:
        if t.startswith('pub use'): continue
        m=re.match(r'use ([^{]*?)\.\{(.*)\}\s*$',t,re.S)
        if m:
            names=[n.strip() for n in m.group(2).replace('\n',' ').split(',') if n.strip()]
            keep=[]
            for n in names:
                nm=n.split(' as ')[-1].strip().split('.')[-1]
                parts=mixfix_parts(nm)
                if nm in toks or nm in toksdot or ('_' in nm and all(p in toks or p in toksdot or p in btext_nc for p in parts)) :
                    keep.append(n)
                else:
                    removed.append(n)
            if len(keep)<len(names):
                changed=True
                rep[a]=(b, f"use {m.group(1)}.{{{', '.join(keep)}}}" if keep else None)
        else:
            m=re.match(r'use (\S+) as (\S+)\s*$',t)
            if m:
                nm=m.group(2)
                if not re.search(r'(?<![\w\-·])'+re.escape(nm)+r'\.',btext_nc) and nm not in toks:
                    changed=True; alias+=1; rep[a]=(b,None)
    tot+=len(removed)
    if changed and write:
        res=[]; i=0
        while i<len(lines):
            if i in rep:
                b,n=rep[i]
                if n: res.append(n)
                i=b+1
            else:
                res.append(lines[i]); i+=1
        open(f,'w',encoding='utf8').write('\n'.join(res))
    if changed and not write and len(sys.argv)<12:
        print(f,removed)
print('names',tot,'aliases',alias)
