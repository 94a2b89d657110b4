import glob,re,sys,os
bad=0;n=0
for e in glob.glob('crates/*/must-fail/*.edit'):
    crate=e.split('/')[1]; f=None; n+=1
    for l in open(e,encoding='utf8'):
        l=l.rstrip('\n')
        if l.startswith('file:'): f=l[5:].strip()
        elif l.startswith('old: '):
            t=open(f'crates/{crate}/{f}',encoding='utf8').read()
            if t.count(l[5:])!=1: bad+=1; print(e,t.count(l[5:]),l[:100])
print(n,'edits',bad,'bad')
