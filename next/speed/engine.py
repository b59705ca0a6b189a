# engine.py DIR: sections_part calls readings::read_sections
import sys,re
d=sys.argv[1]
p=d+'/crates/doorquill/src/passed.rt'
s=open(p).read()
if 'read_signals' in s:
    i=s.index('    read_signals('); j=s.index('    )\n',i)+6
    s=s[:i]+'''    readings::read_sections(
        [kinds, states],
        [refs, vecs, mins, maxs, vec_refs],
        section_heads::How { big_endian },
        input,
        &mut room[..n],
        &mut list[..mins.len()],
        events,
        values,
        c,
    )
'''+s[j:]
    s=s.replace('use signals::read_signals;\n','')
    open(p,'w').write(s)
c=open(d+'/crates.txt').read()
c=re.sub(r'^(doorquill:.*)$', r'\1 readings item_turns', c, flags=re.M)
open(d+'/crates.txt','w').write(c)
