import re,os,sys
root=sys.argv[1] if len(sys.argv)>1 else '.'
os.chdir(root)
lines=open('crates.txt').read().split('\n')
names=[l.split(':')[0] for l in lines if l and not l.startswith('#')]
allc=set(os.listdir('crates'))|{'io','libc','os','check','bytes'}
old={l.split(':')[0]:l.split(':')[1].split() for l in lines if l and not l.startswith('#')}
order={n:i for i,n in enumerate(names)}
def refs(c):
    s=set(); real=set()
    for d,_,fs in os.walk(f'crates/{c}'):
        if '/must-fail' in d: continue
        for f in fs:
            p=os.path.join(d,f)
            if f.endswith('.rt'):
                t=open(p,encoding='utf8').read()
                t='\n'.join(l for l in t.split('\n') if not l.strip().startswith('//'))
                s|=set(re.findall(r'\b([a-z_0-9]+)::',t)); real|=set(re.findall(r'Rattle·([a-z_0-9]+)',t)); s|=real
            elif f.endswith('.antt'):
                t=open(p,encoding='utf8').read()
                t='\n'.join(l for l in t.split('\n') if not l.strip().startswith('--'))
                real|=set(re.findall(r'Rattle·([a-z_0-9]+)',t)); s|=real
    own={f[:-3] for f in os.listdir(f'crates/{c}/src')}
    for d,_,fs in os.walk(f'crates/{c}/src'): own|={f[:-3] for f in fs}
    return {x for x in (s&allc)-{c,'std'}-({'fixed','calls','check'}-set(old.get(c,[]))-real) if x not in own or any(True for _ in [0] if x in old.get(c,[]))}
new={c:refs(c) for c in allc if os.path.isdir(f'crates/{c}')}
for c in sorted(new):
    o=set(old.get(c,[])); 
    if o!=new[c]: print(c,'unused:',sorted(o-new[c]),'missing:',sorted(new[c]-o))
if '--write' in sys.argv:
    out=[]
    done=set()
    # layers
    lay={}
    def L(c):
        if c not in new: return 0
        if c not in lay: lay[c]=1+max([L(d) for d in new[c]],default=0)
        return lay[c]
    cs=sorted(new,key=lambda c:(L(c),order.get(c,0)))
    for l in lines:
        if l.startswith('#'): out.append(l)
    def key(d): return (L(d) if d in new else 99, order.get(d,500), d)
    keep='--keep' in sys.argv
    for c in cs:
        ds=new[c]
        ds=[d for d in old.get(c,[]) if d in ds]+sorted([d for d in ds if d not in old.get(c,[])],key=key)
        out.append(f'{c}:'+''.join(' '+d for d in ds))
    open('crates.txt','w').write('\n'.join(out)+'\n')
