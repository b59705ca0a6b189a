#!/usr/bin/env python3
"""repath CRATE FN: after `rt goals CRATE`, sets each `c .before .. .field` of the proof file to the depth where field stands."""
import glob,re,sys,subprocess,os
crate,fn=sys.argv[1:3]
if '--nogoals' not in sys.argv:
    subprocess.run(['rt','goals',crate],stdout=subprocess.DEVNULL,stderr=subprocess.DEVNULL)
found=glob.glob(f'target/goals/{crate}/**/proofs/{fn}/Lts.antt',recursive=True)
if not found: sys.exit('no Lts')
rec,needs,cur,last={}, {}, None, None
for l in open(found[0],encoding='utf-8'):
    m=re.match(r'\s+pub record (\S+)( .*)? : Type',l)
    if m:
        cur=m.group(1)
        if not cur.endswith('·own'): rec[cur]={'before':None,'fields':[]}
        continue
    m=re.match(r'\s+pub before : (\S+)',l)
    if m and cur in rec: rec[cur]['before']=m.group(1); continue
    m=re.match(r'\s+pub (\S+) : (\S+)',l)
    if m and cur in rec: rec[cur]['fields'].append(m.group(1))
    m=re.match(r'\s+(Need-\S+) =\s*(\(c : (\S+)\))?',l)
    if m:
        last=m.group(1)
        if m.group(3): needs[last],last=m.group(3).rstrip(')'),None
        continue
    m=re.match(r'\s+\(c : ([^ )]+)\)',l)
    if m and last: needs[last],last=m.group(1),None
def depths(r,field):
    out=[];d=0
    while r in rec:
        if field in rec[r]['fields']: out.append(d)
        r=rec[r]['before'];d+=1
    return out
p=glob.glob(f'crates/{crate}/proofs/**/{fn}/Proof.antt',recursive=True)+glob.glob(f'crates/{crate}/proofs/{fn}/Proof.antt')
p=p[0]
s=open(p,encoding='utf-8').read()
blocks=re.split(r'(?m)(?=^\S)',s)
out=[]
for b in blocks:
    m=re.match(r'(\S+) c\b',b)
    if m and 'Need-'+m.group(1) in needs:
        st=needs['Need-'+m.group(1)]
        name=m.group(1)
        def fix(mm):
            old=mm.group(1).count('.before'); f=mm.group(2)
            ds=depths(st,f)
            if not ds: print('no field',f,'at',name); return mm.group(0)
            best=min(ds,key=lambda d:abs(d-old))
            if best!=old: print(name,f,old,'->',best,ds)
            return 'c'+' .before'*best+' .'+f
        b=re.sub(r'\bc((?: \.before)*) \.(?!before)([\w·-]+)',fix,b)
        def fixlet(mm):
            old=mm.group(1).count('.before')
            ds=depths(st,'start')
            if not ds: print('no start at',name); return mm.group(0)
            best=min(ds,key=lambda d:abs(d-old))
            if best!=old: print(name,'s',old,'->',best,ds)
            return 'let s = c'+' .before'*best+' in'
        b=re.sub(r'let s = c((?: \.before)*) in',fixlet,b)
    out.append(b)
t=''.join(out)
if t!=s and '--dry' not in sys.argv: open(p,'w',encoding='utf-8').write(t)
