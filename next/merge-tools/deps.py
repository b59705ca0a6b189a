import re,os
deps={}
for l in open('crates.txt'):
    if ':' in l and not l.startswith('#'):
        n,d=l.rstrip('\n').split(':',1); deps[n]=d.split()
for n in deps:
    txt=''
    for d,_,fs in os.walk('crates/'+n):
        if '/must-fail' in d: continue
        for f in fs:
            if f.endswith(('.antt','.rt')): txt+=open(os.path.join(d,f)).read()
    for x in deps:
        if x==n: continue
        u=bool(re.search(r'Rattle·'+x+r'(\.|·)',txt)) or bool(re.search(r'(?<![\w:])'+x+r'::',txt))
        if u and x not in deps[n]: print('MISSING',n,x)
        if not u and x in deps[n]: print('needless?',n,x)
