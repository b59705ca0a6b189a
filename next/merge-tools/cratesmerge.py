#!/usr/bin/env python3
# 3-way merge of crates.txt: stages 1,2,3
import subprocess,re
def get(n):
    return subprocess.check_output(['git','show',f':{n}:crates.txt'],text=True).split('\n')
b,o,t=get(1),get(2),get(3)
def parse(L):
    d={}
    for l in L:
        if ':' in l and not l.startswith('#'):
            n,x=l.split(':',1); d[n]=x.split()
    return d
B,O,T=parse(b),parse(o),parse(t)
res=[]
def merge(n):
    bb,oo,tt=set(B.get(n,[])),O.get(n),T.get(n)
    if oo is None: 
        return None if n in B else tt
    if tt is None:
        return None if n in B else oo
    rm=(bb-set(oo))|(bb-set(tt))
    out=[x for x in tt if x not in rm]
    for i,x in enumerate(oo):
        if x not in out and x not in rm:
            # place before the next known
            k=len(out)
            for y in oo[i+1:]:
                if y in out: k=out.index(y); break
            out.insert(k,x)
    return out
lines=list(o)
# add lines only in theirs behind their predecessor
names=[l.split(':')[0] for l in lines]
for i,l in enumerate(t):
    if ':' in l and not l.startswith('#'):
        n=l.split(':')[0]
        if n not in O and n not in B:
            prev=None
            for j in range(i-1,-1,-1):
                if ':' in t[j] and not t[j].startswith('#') or t[j].startswith('#'):
                    prev=t[j].split(':')[0] if not t[j].startswith('#') else t[j]; break
            names=[x.split(':')[0] if not x.startswith('#') else x for x in lines]
            k=names.index(prev)+1 if prev in names else len(lines)
            lines.insert(k,l)
out=[]
for l in lines:
    if ':' in l and not l.startswith('#'):
        n=l.split(':')[0]; d=merge(n)
        if d is None: continue
        out.append((n+': '+' '.join(d)).rstrip())
    else: out.append(l)
open('crates.txt','w').write('\n'.join(out))
subprocess.check_call(['git','add','crates.txt'])
