import struct,os,sys
def rec(kind,*f): return struct.pack('<%dH'%(2+len(f)),4+2*len(f),kind,*f)
class Img:
    def __init__(s):
        s.types=[];s.terms=[];s.tn={}
    def ty(s,*t):
        if t not in s.tn: s.tn[t]=len(s.types); s.types.append(t)
        return s.tn[t]
    def te(s,kind,*f,num=None):
        b=rec(kind,*f) if num is None else struct.pack('<HHHi',10,kind,f[0],num)
        s.terms.append(b); return len(s.terms)-1
    def out(s,doms=1):
        return b''.join([rec(1,1<<d) for d in range(doms)]+[rec(*t) for t in s.types]+s.terms)
def base():
    I=Img(); U=I.ty(16); B=I.ty(17); N=I.ty(18); L=I.ty(22,N,0); P=I.ty(23,N,0); A=I.ty(24,0); S=I.ty(26)
    return I,U,B,N,L,P,A,S
def nest(kind,depth,inner='unit'):
    I,U,B,N,L,P,A,S=base()
    def unit(): return I.te(32,U)
    def body(d):
        if d==0:
            return unit()
        k=kind if isinstance(kind,str) else kind(d)
        if k=='if1':
            c=I.te(33,B,1); x=body(d-1); y=unit(); return I.te(38,U,c,x,y)
        if k=='if2':
            c=I.te(33,B,1); y=unit(); x=body(d-1); return I.te(38,U,c,y,x)
        if k=='seq1':
            x=body(d-1); y=unit(); return I.te(36,U,x,y)
        if k=='seq2':
            y=unit(); x=body(d-1); return I.te(36,U,y,x)
        if k=='match1':
            s=I.te(56,S); x=body(d-1); y=unit(); return I.te(58,U,s,x,y,0)
        if k=='match2':
            s=I.te(56,S); y=unit(); x=body(d-1); return I.te(58,U,s,y,x,0)
        if k=='keep':
            l=I.te(44,L); v=I.te(34,N,num=5); x=body(d-1); return I.te(57,U,l,v,x)
        if k=='lower':
            x=body(d-1); return I.te(52,U,0,x)
    return I,(U,B,N,L,P,A,S),body
os.makedirs(sys.argv[1],exist_ok=True)
for k in ['if1','if2','seq1','seq2','match1','match2','keep','lower']:
    for where in ['advice','program']:
        for d in [59,60,61,62,63]:
            I,(U,B,N,L,P,A,S),body=nest(k,d)
            if where=='advice':
                l=I.te(44,L); p=I.te(46,P,l); b=body(d); a=I.te(47,A,p,b); r=I.te(48,U,a)
            else:
                r=body(d)
            open(f'{sys.argv[1]}/{k}-{where}-{d}.img','wb').write(I.out())
