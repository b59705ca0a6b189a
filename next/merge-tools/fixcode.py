#!/usr/bin/env python3
import re,os,collections
defs=collections.defaultdict(set)
for c in os.listdir('crates'):
    for d,_,fs in os.walk(f'crates/{c}/src'):
        for f in fs:
            if f.endswith('.rt'):
                mod=os.path.relpath(os.path.join(d,f),f'crates/{c}/src')[:-3]
                for m in re.finditer(r'^\s*pub (?:extern "C" )?(?:fn|struct|enum|const) (\w+)',open(os.path.join(d,f)).read(),re.M): defs[m.group(1)].add((c,mod))
for d,_,fs in os.walk('crates'):
    if '/src' not in d: continue
    for f in fs:
        if not f.endswith('.rt'): continue
        p=os.path.join(d,f); L=open(p).read().split('\n'); out=[]; names={}
        for l in L:
            m=re.match(r'^use (\w+)((?:::\w+)*)::(\w+);$',l)
            if m and os.path.isdir('crates/'+m.group(1)):
                c,n=m.group(1),m.group(3)
                if not any(x[0]==c for x in defs[n]) and n not in('specs',):
                    cand={x for x in defs[n]}
                    if len(cand)==1:
                        cc,mod=list(cand)[0]
                        nl=f'use {cc}::{"" if mod=="lib" else mod.replace("/","::")+"::"}{n};'
                        print(p,l,'->',nl); l=nl
                    elif cand: print('?',p,l,cand)
                if l in out: continue
            out.append(l)
        t='\n'.join(out)
        if t!='\n'.join(L): open(p,'w').write(t)
