import re,sys,math
def parse(f):
    d={}; cur=None
    for l in open(f):
        m=re.match(r'^(\S+)\.img\s+call\s+(\d+) run0\s+(\d+) check\s+(\d+)',l)
        if m: d[cur][m[1]]=(int(m[2]),int(m[3]),int(m[4]))
        elif l.strip() and ' ' not in l.strip(): cur=l.strip(); d[cur]={}
    return d
d=parse(sys.argv[1]); a,b=d[sys.argv[2]],d[sys.argv[3]]
rows=[];gc=[];gr=[]
for k in sorted(a):
    gc.append(math.log(b[k][2]/a[k][2])); gr.append(math.log(b[k][1]/a[k][1]))
    rows.append(f"| {k.replace('-',' ')} | {a[k][2]:,}, {b[k][2]:,} ({(b[k][2]/a[k][2]-1)*100:+.1f} %) | {a[k][1]:,}, {b[k][1]:,} ({(b[k][1]/a[k][1]-1)*100:+.1f} %) |")
print('\n'.join(rows)); print('MEANS %.1f %% and %.1f %%'%((math.exp(sum(gc)/len(gc))-1)*100,(math.exp(sum(gr)/len(gr))-1)*100))
