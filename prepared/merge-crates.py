#!/usr/bin/env python3
"""merge.py A B [mod]: crate A becomes part of crate B. If A has functions, its src/lib.rt becomes src/MOD.rt, and their proofs proofs/MOD/.."""
import sys,os,re,glob,subprocess
A,B=sys.argv[1:3]; mod=sys.argv[3] if len(sys.argv)>3 else None
ren=dict(x.split('=') for x in sys.argv[4:])  # renamed modules of A: Words=UpWords
a,b='crates/'+A,'crates/'+B
def sh(*c): subprocess.check_call(c)
def mv(x,y):
    os.makedirs(os.path.dirname(y),exist_ok=True); sh('git','mv',x,y)
fnproofs=[]; theory={'specs':[],'proofs':[]}
srcs=[os.path.basename(p)[:-3] for p in glob.glob(a+'/src/*.rt') if not p.endswith('/lib.rt')]
for k in ('specs','proofs'):
    for p in sorted(glob.glob(f'{a}/{k}/*')):
        n=os.path.basename(p)
        if n=='Lib.antt': continue
        stem=n[:-5] if n.endswith('.antt') else n
        new=ren.get(stem,stem)
        if os.path.isdir(p) and k=='proofs' and not stem[0].isupper() :
            if stem in srcs: mv(p,f'{b}/proofs/{new}'); 
            else: fnproofs.append(stem); mv(p,f'{b}/proofs/{mod}/{stem}')
        else:
            mv(p,f'{b}/{k}/{new}'+('.antt' if n.endswith('.antt') else ''))
            if n.endswith('.antt'): theory[k].append((stem,new))
for e in glob.glob(a+'/must-fail/*.edit'): mv(e,f'{b}/must-fail/{os.path.basename(e)}')
for s in srcs: mv(f'{a}/src/{s}.rt',f'{b}/src/{s}.rt')
libA=open(a+'/src/lib.rt').read()
hasfn=re.search(r'^(pub )?(fn|struct|enum|const) ',libA,flags=re.M) is not None
if hasfn: mv(a+'/src/lib.rt',f'{b}/src/{mod}.rt')
else: sh('git','rm','-q',a+'/src/lib.rt')
for k in ('specs','proofs'):
    L=f'{a}/{k}/Lib.antt'
    if os.path.exists(L): sh('git','rm','-q',L)
    if theory[k]:
        M=f'{b}/{k}/Lib.antt'
        t=open(M).read() if os.path.exists(M) else '-- TODO\n'
        t=t.rstrip('\n')+'\n'+''.join(f'pub mod {n}\n' for _,n in theory[k])
        open(M,'w').write(t)
own=set(glob.glob(b+'/**/*.antt',recursive=True)+glob.glob(b+'/**/*.rt',recursive=True))
decl=re.findall(r'^pub (?:struct|enum) (\w+)',libA,flags=re.M)
for p in glob.glob('crates/**/*',recursive=True):
    if not p.endswith(('.antt','.rt','.edit')): continue
    if not os.path.isfile(p): continue
    t=open(p).read(); t0=t
    inside=p in own
    def name(kind,path):
        seg=path.split('.')
        if kind=='specs' and seg[0]=='declared':
            if len(seg)>1 and seg[1] in srcs: return path
            if mod and hasfn: return '.'.join(['declared',mod]+seg[1:])
            return path
        if kind=='proofs' and (seg[0] in fnproofs or seg[0] in decl) and hasfn: return '.'.join([mod]+seg)
        seg[0]=ren.get(seg[0],seg[0]); return '.'.join(seg)
    def f(m):
        kind=m.group(1) or m.group(2); path=m.group(3)
        q=name(kind,path)
        return f'Rattle·{B}·{kind}.{kind}.{q}' if inside else f'Rattle·{B}.{kind}.{q}'
    t=re.sub(rf'Rattle·{A}(?:·(specs|proofs)\.(?:specs|proofs)|\.(specs|proofs))\.([\w+·]+(?:\.[\w+·]+)*)',f,t)
    if p.endswith('.rt'):
        if hasfn or srcs:
            def g(m):
                nxt=m.group(1)
                tgt=(f'crate::' if inside else f'{B}::')
                return tgt+(nxt+'::' if nxt in srcs else (f'{mod}::' if hasfn else '')+nxt+'::') if m.group(2)=='::' else tgt+(f'{mod}::' if hasfn else '')+nxt+m.group(2)
            t=re.sub(rf'(?<![\w:]){A}::(\w+)(::|\b)',lambda m:(('crate::' if inside else f'{B}::')+((m.group(1)) if m.group(1) in srcs else ((f'{mod}::' if hasfn else '')+m.group(1)))+m.group(2)),t)
    if p.endswith('.edit') and inside and hasfn and '/must-fail/' in p: pass
    if t!=t0: open(p,'w').write(t)
if hasfn or srcs:
    L=b+'/src/lib.rt'; t=open(L).read()
    add=''.join(f'pub mod {s};\n' for s in srcs+([mod] if hasfn else []))
    i=re.search(r'^(pub )?mod ',t,flags=re.M)
    if i: t=t[:i.start()]+add+t[i.start():]
    else:
        m=re.match(r'((?://.*\n)*)',t); t=t[:m.end()]+add+t[m.end():]
    open(L,'w').write(t)
# crates.txt
d={};o=[];head=[]
for l in open('crates.txt').read().split('\n'):
    if l.startswith('#') or ':' not in l:
        if l: head.append(l)
        continue
    k,v=l.split(':'); d[k]=v.split(); o.append(k)
da=d.pop(A); o.remove(A)
for x in da:
    if x not in d[B] and x!=B: d[B].append(x)
for k in o:
    v=[]
    for x in d[k]:
        x=B if x==A else x
        if x not in v and x!=k: v.append(x)
    d[k]=v
# order by layer
lev={}
def LV(n):
    if n not in lev: lev[n]=max([LV(x)+1 for x in d[n] if x in d],default=0)
    return lev[n]
for k in o: LV(k)
o.sort(key=lambda k:lev[k])
open('crates.txt','w').write('\n'.join(head)+'\n'+''.join(f'{k}: {" ".join(d[k])}'.rstrip()+'\n' for k in o))
