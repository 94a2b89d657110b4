import re,glob
pat=re.compile(r"^(?P<n>\S+) : tie\.Need-[^\n]*\n(?P=n)(?P<a>( [^\s=]+)+) = search needs\n\n",re.M)
tot=0
for p in glob.glob('crates/*/proofs/**/*.antt',recursive=True):
    t=open(p).read()
    found={m.group('n'):m.group('a').strip() for m in pat.finditer(t)}
    if not found: continue
    for x in found:
        t2=re.sub(r"^"+re.escape(x)+r" : tie\.Need-[^\n]*\n"+re.escape(x)+r"( [^\s=]+)+ = search needs\n\n",'',t,count=1,flags=re.M)
        i=t2.find('tie.close')
        if i<0 or re.search(r"(?<![\w·'.-])"+re.escape(x)+r"(?![\w'-])",t2[:i]): continue
        head,tail=t2[:i],t2[i:]
        tail,k=re.subn(r"(?<=[\s(])"+re.escape(x)+r"(?=[\s)])",f"(λ {found[x]}. search needs)",tail)
        assert k==1,(p,x,k)
        t=head+tail; tot+=1
    open(p,'w').write(t); print(p)
print(tot)
