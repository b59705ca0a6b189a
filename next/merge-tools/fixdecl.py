#!/usr/bin/env python3
import re,os,collections
defs=collections.defaultdict(set)
for c in os.listdir('crates'):
    for d,_,fs in os.walk(f'crates/{c}/src'):
        for f in fs:
            if f.endswith('.rt'):
                for m in re.finditer(r'^\s*pub (?:struct|enum) (\w+)|^\s*(?:struct|enum) (\w+)',open(os.path.join(d,f)).read(),re.M): defs[m.group(1) or m.group(2)].add(c)
for d,_,fs in os.walk('crates'):
    if 'must-fail' in d: continue
    for f in fs:
        if not f.endswith(('.rt','.antt')): continue
        p=os.path.join(d,f); s=open(p).read(); own=p.split('/')[1]
        def r(m):
            c,o,mod=m.group(1),m.group(2) or '',m.group(3)
            if c in defs[mod] or not defs[mod] or not os.path.isdir('crates/'+c): return m.group(0)
            if len(defs[mod])!=1:
                print('?',p,m.group(0),defs[mod]); return m.group(0)
            cc=list(defs[mod])[0]
            return f'Rattle·{cc}{"·specs" if cc==own and "/specs/" in p else ""}.specs.declared.{mod}'
        t=re.sub(r'Rattle·(\w+?)(·specs)?\.specs\.declared\.(\w+)',r,s)
        if t!=s: open(p,'w').write(t); print('fixed',p)
