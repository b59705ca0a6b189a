#!/usr/bin/env python3
# conflicts that consist of import lines only: the union of both sides, by module
import re,subprocess
files=subprocess.check_output(['git','diff','--name-only','--diff-filter=U'],text=True).split()
for p in files:
    try: s=open(p).read()
    except Exception: print('gone',p); continue
    def r(m):
        ours,theirs=m.group(1),m.group(2)
        ls=[l for l in (ours+theirs).split('\n') if l.strip()]
        if not all(re.match(r'^\s*(ghost )?use ',l) for l in ls): return m.group(0)
        mods={};order=[]
        for l in ls:
            mm=re.match(r'^(\s*(?:ghost )?use \S+?\.)\{([^}]*)\}(;?)$',l)
            if not mm:
                if l not in mods: mods[l]=None; order.append(l)
                continue
            k=(mm.group(1),mm.group(3))
            if k not in mods: mods[k]=[]; order.append(k)
            for n in mm.group(2).split(','):
                n=n.strip()
                if n and n not in mods[k]: mods[k].append(n)
        return ''.join((k if mods[k] is None else k[0]+'{'+', '.join(mods[k])+'}'+k[1])+'\n' for k in order)
    t=re.sub(r'<<<<<<< [^\n]*\n(.*?)(?:\|\|\|\|\|\|\| [^\n]*\n.*?)?=======\n(.*?)>>>>>>> [^\n]*\n',r,s,flags=re.S)
    open(p,'w').write(t)
    if '<<<<<<<' not in t: subprocess.check_call(['git','add',p])
    else: print('left',p,t.count('<<<<<<<'))
