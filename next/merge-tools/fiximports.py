#!/usr/bin/env python3
# in a tree: every name imported from a crate's specs module is looked up; if the module does not define it and exactly one module elsewhere of that name does, the import is moved
import re,os,sys,collections
W=lambda s:s
defs={} # (crate,modpath)->set
where=collections.defaultdict(set)
for c in sorted(os.listdir('crates')):
    base=f'crates/{c}/specs'
    for d,_,fs in os.walk(base):
        for f in fs:
            if not f.endswith('.antt'): continue
            p=os.path.join(d,f); m=p[len(f'crates/{c}/'):-5].replace('/','.')
            names=set(); indata=None
            for l in open(p):
                mm=re.match(r'^(\s*)((?:unfoldable |abbrev |private |inline )*)pub (record |data |mod |module |ruleset )?([^\s:({]+)',l)
                if mm:
                    if (mm.group(3) or '').strip()=='mod': continue
                    names.add(mm.group(4)); indata=len(mm.group(1)) if (mm.group(3) or '').strip()=='data' else None
                    continue
                if indata is not None:
                    k=re.match(r'^(\s+)(\S[^:]*?) :',l)
                    if k and len(k.group(1))>indata:
                        names.update(k.group(2).split())
                    elif l.strip(): indata=None
            defs[(c,m)]=names
            for n in names: where[n].add((c,m))
rx=re.compile(r'^(\s*(?:ghost )?use )Rattle·(\w+?)(·specs|·proofs)?\.(specs(?:\.[\w-]+)*)\.\{([^}]*)\}(;?)$')
bad=0
for d,_,fs in os.walk('crates'):
    if 'must-fail' in d: continue
    for f in fs:
        if not f.endswith(('.antt','.rt')): continue
        p=os.path.join(d,f); own=p.split('/')[1]
        L=open(p).read().split('\n'); out=[]; pos={}; changed=False
        for l in L:
            m=rx.match(l)
            if not m or '.declared' in m.group(4) or not os.path.isdir('crates/'+m.group(2)): out.append(l); continue
            pre,c,o,mod,names,semi=m.groups()
            names=[n.strip() for n in names.split(',') if n.strip()]
            groups=collections.OrderedDict()
            for n in names:
                base=n.split(' ')[0]
                key=(c,o,mod)
                if (c,mod) not in defs or base not in defs[(c,mod)]:
                    cand=where.get(base,set())
                    same=[x for x in cand if x[1].split('.')[-1]==mod.split('.')[-1]] or list(cand)
                    if len(same)==1:
                        cc,mm=same[0]; key=(cc,('·specs' if cc==own and '/specs/' in p else None),mm)
                    elif (c,mod) not in defs or True:
                        if base not in defs.get((c,mod),()):
                            print('?',p,c,mod,base,sorted(cand)[:4]); bad+=1
                groups.setdefault(key,[]).append(n)
            if list(groups)==[(c,o,mod)] and 'union' not in sys.argv:
                pos.setdefault(f'{pre}Rattle·{c}{o or ""}.{mod}.',len(out)); out.append(l); continue
            for (cc,oo,mm),ns in groups.items():
                k=f'{pre}Rattle·{cc}{oo or ""}.{mm}.'
                if k in pos:
                    i=pos[k]; have=re.search(r'\{([^}]*)\}',out[i]).group(1).split(', ')
                    have+=[n for n in ns if n not in have]; out[i]=k+'{'+', '.join(have)+'}'+semi; changed=True
                else:
                    pos[k]=len(out); out.append(k+'{'+', '.join(ns)+'}'+semi)
                    if out[-1]!=l: changed=True
        if changed and '\n'.join(out)!='\n'.join(L): open(p,'w').write('\n'.join(out)); print('fixed',p)
print(bad,'unknown')
