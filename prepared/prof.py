#!/usr/bin/env python3
# prof.py TREE CRATE MODULE [MINBLOCK]: user seconds of each declaration of a theory module (by cutting)
import sys,os,re,shutil,subprocess,resource,tempfile
tree,crate,mod=sys.argv[1:4]
w=tempfile.mkdtemp(prefix='prof.',dir='/dev/shm')
src=f'{tree}/crates/{crate}'; dst=f'{w}/crates/{crate}'
shutil.copytree(src,dst,ignore=shutil.ignore_patterns('must-fail'))
shutil.copy(f'{tree}/crates.txt',w); os.symlink(f'{tree}/target',f'{w}/target')
# closure of modules
need=[];todo=[mod]
while todo:
    m=todo.pop()
    if m in need: continue
    need.append(m)
    t=open(f'{dst}/proofs/{m}.antt').read()
    for x in re.findall(r'^use Rattle·%s·proofs\.proofs\.(\w+)'%crate,t,re.M):
        if os.path.exists(f'{dst}/proofs/{x}.antt'): todo.append(x)
lib=open(f'{dst}/proofs/Lib.antt').read()
open(f'{dst}/proofs/Lib.antt','w').write('\n'.join(l for l in lib.split('\n') if not l.startswith('pub mod') or l.split()[2] in need)+'\n')
for f in os.listdir(f'{dst}/proofs'):
    p=f'{dst}/proofs/{f}'
    if os.path.isfile(p) and f!='Lib.antt' and f[:-5] not in need: os.remove(p)
    elif os.path.isdir(p): shutil.rmtree(p)
# no functions with bodies
for r,_,fs in os.walk(f'{dst}/src'):
    for f in fs:
        t=open(f'{r}/{f}').read()
        t2=re.sub(r'(?ms)^((?:pub )?fn .*?^\})','',t); open(f'{r}/{f}','w').write(t2)
inc=f'{w}/inc'
env=dict(os.environ,MIMALLOC_PURGE_DELAY='-1',TMPDIR='/dev/shm')
def run():
    p=subprocess.run(['bash',os.environ['WORK']+'/speed/one.sh',w,crate,'--incremental',inc],env=env,capture_output=True,text=True)
    o=p.stdout+p.stderr
    m=re.search(r'wall ([\d.]+) user',o)
    return float(m.group(1)),o
path=f'{dst}/proofs/{mod}.antt'
full=open(path).read()
blocks=re.split(r'\n(?=\n)',full)
# merge: continue blocks whose first nonblank line is indented >=4
bl=[]
for b in blocks:
    first=next((l for l in b.split('\n') if l.strip()),'')
    if bl and (len(first)-len(first.lstrip())>=4): bl[-1]+='\n'+b
    else: bl.append(b)
# heads first
open(path,'w').write(bl[0]+'\n'); prev,o=run(); prev=min(run()[0],run()[0])
print(f'{prev:6.2f} head')
acc=bl[0]
for i,b in enumerate(bl[1:]):
    acc+='\n'+b
    name=next((l.strip() for l in b.split('\n') if l.strip() and not l.strip().startswith('--')),'')
    open(path,'w').write(acc+'\n-- %d\n'%i); t,o=run()
    bad='' if 'logic=proved' in o else ' !! '+next((l for l in o.split('\n') if 'error' in l),'')[:100]
    print(f'{t-prev:6.2f} {name[:110]}{bad}',flush=True)
shutil.rmtree(w)
