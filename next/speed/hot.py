# hot.py NAME ROW: disassembly of dqi_read_sections with executions per write
import os,sys,re,subprocess
n,row=sys.argv[1:3]
W=os.environ['SCRATCH']
out='%s/cg.%s.%s'%(W,n,row)
exe='%s/o/%s/compare'%(W,n)
p=subprocess.run(['valgrind','--tool=callgrind','--dump-instr=yes','--callgrind-out-file='+out,'--toggle-collect=doorquill_read_sections',exe,'bench','1',row],capture_output=True,text=True)
w=int(re.search(r'(\d+) writes',p.stdout).group(1))
cost={}
addr=0
fn=None;calls=False
names={}
for l in open(out):
    l=l.rstrip('\n')
    if l.startswith('calls='): calls=True; continue
    m=re.match(r'^(0x[0-9a-f]+|\+\d+|-\d+|\*|\+0x[0-9a-f]+|-0x[0-9a-f]+) (\S+) (\d+)',l)
    if m:
        a=m.group(1)
        if a.startswith('0x'): addr=int(a,16)
        elif a=='*': pass
        else: addr+=int(a,0)
        if calls: calls=False; continue
        cost[addr]=cost.get(addr,0)+int(m.group(3))
d=subprocess.run(['objdump','-d','--no-show-raw-insn',exe],capture_output=True,text=True).stdout
syms=[]
cur=None;lines=[]
res=[]
for l in d.split('\n'):
    m=re.match(r'^([0-9a-f]+) <(.*)>:',l)
    if m: cur=m.group(2); continue
    m=re.match(r'^\s+([0-9a-f]+):\t(.*)',l)
    if m: res.append((cur,int(m.group(1),16),m.group(2)))
# PIE base
base=0
known={a for _,a,_ in res}
import collections
best=None
for b in (0,0x108000,0x400000,0x109000,0x10a000):
    k=sum(c for a,c in cost.items() if a-b in known)
    if best is None or k>best[0]: best=(k,b)
base=best[1]
tot=collections.Counter()
for f,a,t in res:
    c=cost.get(a+base,0)
    tot[f]+=c
s=sum(cost.values())
print('total/write %.1f  base %x'%(s/w,base))
for f,c in tot.most_common(8): print('  %8.1f %s'%(c/w,f))
with open('%s/hot.%s.%s'%(W,n,row),'w') as o:
    for f,a,t in res:
        c=cost.get(a+base,0)
        if f in ('dqi_read_sections','records::append_event','leb128::nine') or (c and 'wellen' not in f): o.write('%8.3f %6x %s\n'%(c/w,a,t))
