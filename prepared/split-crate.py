#!/usr/bin/env python3
"""split.py OLD NEW src=a,b specs=X,Y proofs=P,Q : moves src modules a,b (with their function proofs proofs/a, proofs/b), specs X,Y and proofs P,Q from crate OLD to crate NEW; rewrites references everywhere."""
import sys,os,re,subprocess,glob
OLD,NEW=sys.argv[1:3]
opt=dict(a.split('=') for a in sys.argv[3:])
g=lambda k:[x for x in opt.get(k,'').split(',') if x]
src,specs,proofs=g('src'),g('specs'),g('proofs')
o,n='crates/'+OLD,'crates/'+NEW
os.makedirs(n+'/src',exist_ok=True)
def mv(a,b):
    if not os.path.exists(a): return
    os.makedirs(os.path.dirname(b),exist_ok=True)
    subprocess.check_call(['git','mv',a,b])
for m in src: mv(f'{o}/src/{m}.rt',f'{n}/src/{m}.rt'); mv(f'{o}/proofs/{m}',f'{n}/proofs/{m}'); mv(f'{o}/proofs/{m}.antt',f'{n}/proofs/{m}.antt')
for m in specs: mv(f'{o}/specs/{m}.antt',f'{n}/specs/{m}.antt'); mv(f'{o}/specs/{m}',f'{n}/specs/{m}')
for m in proofs: mv(f'{o}/proofs/{m}.antt',f'{n}/proofs/{m}.antt'); mv(f'{o}/proofs/{m}',f'{n}/proofs/{m}')
def moved(kind,name):
    return name in (specs if kind=='specs' else proofs+src) or False
def fix(path,where):
    t=open(path).read(); t0=t
    # inside references of OLD
    def r(m):
        kind,name=m.group(1),m.group(2)
        mvd=(name in specs) if kind=='specs' else (name in proofs+src)
        if kind=='specs' and name=='declared':
            mod=m.group(3).split('.')[1] if m.group(3) else ''
            mvd=mod in src
        tail=m.group(3) or ''
        if where=='new':
            if mvd: return f'Rattle·{NEW}·{kind}.{kind}.{name}{tail}'
            return m.group(0)
        if where=='old':
            if mvd: return f'Rattle·{NEW}.{kind}.{name}{tail}'
            return m.group(0)
    t=re.sub(rf'Rattle·{OLD}·(specs|proofs)\.(?:specs|proofs)\.([\w+]+)((?:\.[\w+]+)*)',r,t)
    def r2(m):
        kind,name=m.group(1),m.group(2); tail=m.group(3) or ''
        mvd=(name in specs) if kind=='specs' else (name in proofs+src)
        if kind=='specs' and name=='declared' and tail: mvd=tail.split('.')[1] in src
        return f'Rattle·{NEW}.{kind}.{name}{tail}' if mvd else m.group(0)
    t=re.sub(rf'Rattle·{OLD}\.(specs|proofs)\.([\w+]+)((?:\.[\w+]+)*)',r2,t)
    if path.endswith('.rt'):
        for m in src:
            if where=='old':
                t=re.sub(rf'\bcrate::{m}::',f'{NEW}::{m}::',t)
                t=re.sub(rf'^use {m}::',f'use {NEW}::{m}::',t,flags=re.M)
                t=re.sub(rf'^(pub )?mod {m};\n','',t,flags=re.M)
                t=re.sub(rf'(?<![\w:]){m}::',f'{NEW}::{m}::',t)
                t=t.replace(f'use {NEW}::{NEW}::',f'use {NEW}::').replace(f'{NEW}::{NEW}::',f'{NEW}::')
            elif where=='other':
                t=re.sub(rf'\b{OLD}::{m}::',f'{NEW}::{m}::',t)
    if t!=t0: open(path,'w').write(t)
for p in glob.glob(n+'/**/*',recursive=True):
    if p.endswith(('.rt','.antt')): fix(p,'new')
for p in glob.glob(o+'/**/*',recursive=True):
    if p.endswith(('.rt','.antt')): fix(p,'old')
for p in glob.glob('crates/**/*',recursive=True):
    if p.endswith(('.rt','.antt')) and not p.startswith((o+'/',n+'/')): fix(p,'other')
# Lib.antt: pub mod lines
for k,names in (('specs',specs),('proofs',proofs)):
    L=f'{o}/{k}/Lib.antt'
    if os.path.exists(L):
        t=open(L).read()
        for m in names: t=re.sub(rf'^pub mod {m}\n','',t,flags=re.M)
        open(L,'w').write(t)
        if names and not os.path.exists(f'{n}/{k}/Lib.antt'):
            open(f'{n}/{k}/Lib.antt','w').write('-- TODO\n'+''.join(f'pub mod {m}\n' for m in names))
if not os.path.exists(n+'/src/lib.rt'):
    open(n+'/src/lib.rt','w').write('// TODO\n'+''.join(f'pub mod {m};\n' for m in src))
