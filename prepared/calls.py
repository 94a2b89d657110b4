import sys,subprocess,hashlib,os
drv,n=sys.argv[1],sys.argv[2]
V=os.environ['WORK']+'/shared/vectors/'
rows=[]
for l in open(f'{V}cards/calls-after-{n}.txt'):
    if l.startswith('#') or not l.strip(): continue
    a,b=l.split(':'); name,budget,ll,fl=a.split(); rows.append((name,budget,ll,fl,b.split()))
def path(nm):
    for d in ('base','cards'):
        p=f'{V}{d}/{nm}.img' if not nm.startswith('base-') else f'{V}base/{nm[5:]}.img'
        if os.path.exists(p): return p
    sub=nm
    raise SystemExit('no '+nm)
inp=''.join(f'{path(r[0])} {r[1]} {r[2]} {r[3]}\n' for r in rows)
out=subprocess.run([drv],input=inp,capture_output=True,text=True).stdout.split('\n')
bad=0
for r,o in zip(rows,out):
    run,rest=o.split(' ',1); lg,rp=rest.split('|'); lg=bytes.fromhex(lg); rp=bytes.fromhex(rp)
    got=[str(rp[4]|rp[5]<<8),str(int.from_bytes(rp[6:10],'little')),hashlib.sha256(lg).hexdigest()[:16],hashlib.sha256(rp).hexdigest()[:16]]
    if got!=r[4]: bad+=1; print(r,got) if bad<4 else None
print(len(rows),'calls',bad,'differ')
