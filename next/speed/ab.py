# ab.py ROUNDS ROWS NAME..: compare bench 1-row runs alternating; min and median of port ms, crate min, ratio of mins, median of ratios
import os,sys,re,subprocess,statistics
rounds=int(sys.argv[1]); rows=sys.argv[2].split(','); names=sys.argv[3:]
for r in rows:
    P={n:[] for n in names}; C=[]; R={n:[] for n in names}
    for k in range(rounds):
        for n in names:
            o=subprocess.run(['%s/o/%s/compare'%(os.environ['SCRATCH'],n),'bench','5',r],capture_output=True,text=True).stdout
            m=re.search(r'crate ([\d.]+)',o.split('\n',2)[2]); q=re.search(r'port  ([\d.]+)',o)
            if not q: print(n,o); continue
            if 'differs' in o: print('DIFFERS',n,r)
            C.append(float(m.group(1))); P[n].append(float(q.group(1))); R[n].append(float(m.group(1))/float(q.group(1)))
    print('row',r,'crate min %.2f med %.2f'%(min(C),statistics.median(C)),' | '.join('%s %.2f/%.2f r%.2f'%(n,min(P[n]),statistics.median(P[n]),statistics.median(R[n])) for n in names),flush=True)
