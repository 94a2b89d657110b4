#!/usr/bin/env python3
# edits.py TREE CRATE [LABEL..]: for each edit the user seconds and the modules with errors
import sys,os,re,shutil,subprocess,tempfile
tree,crate=sys.argv[1:3]; labels=sys.argv[3:]
d=f'{tree}/crates/{crate}/must-fail'
labels=labels or sorted(f[:-5] for f in os.listdir(d))
env=dict(os.environ,MIMALLOC_PURGE_DELAY='-1',TMPDIR='/dev/shm')
for lab in labels:
    w=tempfile.mkdtemp(prefix='edit.',dir='/dev/shm')
    dst=f'{w}/crates/{crate}'
    shutil.copytree(f'{tree}/crates/{crate}',dst,ignore=shutil.ignore_patterns('must-fail'))
    shutil.copy(f'{tree}/crates.txt',w); os.symlink(os.path.abspath(f'{tree}/target'),f'{w}/target')
    f=None;old=None
    for l in open(f'{d}/{lab}.edit').read().split('\n'):
        if l.startswith('file: '): f=l[6:]
        elif l.startswith('old: '): old=l[5:]
        elif l.startswith('new:'):
            p=f'{dst}/{f}'; t=open(p).read(); assert t.count(old)==1,(lab,f,old,t.count(old)); open(p,'w').write(t.replace(old,l[5:]))
    p=subprocess.run(['bash',os.environ['WORK']+'/speed/one.sh',w,crate],env=env,capture_output=True,text=True)
    o=p.stdout+p.stderr
    u=re.search(r'wall ([\d.]+) user',o).group(1)
    errs=[l for l in o.split('\n') if 'error' in l]
    first=[re.sub(r'^.*/crates/[^/]*/','',l)[:170] for l in errs if 'was not admitted' not in l and 'cannot be checked' not in l]
    print(f'== {lab} {u} {"PROVED!!" if "logic=proved" in o else ""} errors {len(errs)}')
    for l in first[:6]: print('    ',l)
    for l in o.split('\n'):
        if 'it is not proved' in l: print('     N',l[-160:]); break
    sys.stdout.flush()
    shutil.rmtree(w)
