import re,sys,glob,os
root=sys.argv[1]; T={}
for f in sys.argv[2:]:
    for l in open(f):
        w=l.split()
        if len(w)>=7 and w[0]=='build': T[w[1]]=float(w[4])+float(w[5])
deps={};order=[]
for l in open(root+'/crates.txt'):
    l=l.split('#')[0]
    if ':' in l:
        n,d=l.split(':'); deps[n.strip()]=d.split(); order.append(n.strip())
lev={}
def L(n):
    if n not in lev: lev[n]=max([L(d)+1 for d in deps[n] if d in deps],default=0)
    return lev[n]
for n in order: L(n)
plan=sorted(order,key=lambda n:lev[n])
ed=[]
for n in plan:
    for e in sorted(glob.glob(root+'/crates/%s/must-fail/*.edit'%n)): ed.append(T.get(n,3)*0.92+0.1)
def ps(ts,cpus=2):
    ts=sorted(ts); w=0; n=len(ts); prev=0
    for i,x in enumerate(ts):
        k=n-i; w+=(x-prev)/min(1,cpus/k); prev=x
    return w
by={}
for n in plan: by.setdefault(lev[n],[]).append(n)
for J in (2,4,5,6,8,12):
    for o in ('file','sorted'):
        tot=0
        for k in by:
            ns=by[k] if o=='file' else sorted(by[k],key=lambda n:-T.get(n,0))
            b=[T.get(n,0)+.3 for n in ns]
            for i in range(0,len(b),J): tot+=ps(b[i:i+J])
        e=0
        es=ed
        if o=='sorted':
            es=[]
            for k in by:
                for n in sorted(by[k],key=lambda n:-T.get(n,0)):
                    es+= [T.get(n,3)*0.92+.1]*len(glob.glob(root+'/crates/%s/must-fail/*.edit'%n))
        for i in range(0,len(es),J): e+=ps(es[i:i+J])
        print(J,o,'crates',round(tot),'edits',round(e),'sum',round(tot+e),'min',round(sum(T.values())/2),round(sum(ed)/2))
