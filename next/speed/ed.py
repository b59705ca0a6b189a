# ed.py DIR EDIT..: named source edits on an experiment tree
import sys,re
d=sys.argv[1]
def sub(f,*pairs):
    p=d+'/crates/'+f; s=open(p).read()
    for a,b in pairs:
        assert s.count(a)==1,(f,s.count(a),a)
        s=s.replace(a,b)
    open(p,'w').write(s)
E={}
def edit(f): E[f.__name__]=f; return f
@edit
def map(): sub('states/src/lib.rt',('    STD_LOGIC_LUT[value as usize]\n','    ((0x8_4763_1025u64 >> (value as u32 * 4)) % 16) as u8\n'))
@edit
def wide():
    sub('records/src/lib.rt',('''        start: u32,
        length: u32,
    },''','''        start: u64,
        length: u64,
    },'''),('put_value(events, at, states, reference, start, length);','put_value(events, at, states, reference, (start % 0x1_0000_0000) as u32, (length % 0x1_0000_0000) as u32);'),
    ('''        start: get_u32(s, at + 5),
        length: get_u32(s, at + 9),''','''        start: get_u32(s, at + 5) as u64,
        length: get_u32(s, at + 9) as u64,'''),
    ('widen(start) + widen(length) <= values','(start as usize) + (length as usize) <= values'),
    ('''            start: counts.values as u32,
            length: n as u32,''','''            start: counts.values as u64,
            length: n as u64,'''))
    try: sub('step_ends/src/lib.rt',('''            start,
            length,
            at,
            next,''','''            (start % 0x1_0000_0000) as u32,
            (length % 0x1_0000_0000) as u32,
            at,
            next,'''))
    except AssertionError as e: print(e)
@edit
def direct(): # append_value writes its record straight
    sub('records/src/lib.rt',('''    let size = append_event(
        events,
        counts.events,
        Record::Value {
            states,
            reference,
            start: counts.values as u32,
            length: n as u32,
        },
    );
    Counts {
        events: counts.events + size,''','''    put_value(events, counts.events, states, reference, counts.values as u32, n as u32);
    Counts {
        events: counts.events + 13,'''),
    ('''    let size = append_event(events, counts.events, Record::Time(time));
    Put::Done(Counts {
        events: counts.events + size,''','''    put_time(events, counts.events, time);
    Put::Done(Counts {
        events: counts.events + 9,'''),
    ('''    let size = append_event(events, counts.events, Record::Real { reference, bits });
    Put::Done(Counts {
        events: counts.events + size,''','''    put_real(events, counts.events, reference, bits);
    Put::Done(Counts {
        events: counts.events + 13,'''))
@edit
def two(): sub('leb128/src/lib.rt',('''            return Leb::Value((first % 128) as u64, at + 1);
        }
''','''            return Leb::Value((first % 128) as u64, at + 1);
        }
        if 1 < s.len() - at {
            let second = s[at + 1];
            if second < 128 {
                return Leb::Value((first % 128) as u64 + (second % 128) as u64 * 128, at + 2);
            }
        }
'''))
@edit
def last(): sub('vecmarks/src/lib.rt',('''    if over == 0 {
        return all_full(room, at, count);''','''    if room[at + count - 1] != 255 {
        if 1 < count {
            return false;
        }
    }
    if over == 0 {
        return all_full(room, at, count);'''))
@edit
def four():
    sub('leb128/src/lib.rt',('''pub fn signed(s: &[u8], at: usize) -> Leb
''','''fn ends(sum: u64, power: u64, last: u8, next: usize) -> Leb {
    if last < 64 {
        Leb::Value(sum, next)
    } else {
        Leb::Value(sum + (0xffff_ffff_ffff_ffff - power) + 1, next)
    }
}

pub fn signed(s: &[u8], at: usize) -> Leb
'''),('''    match nine(s, at) {
        Run::Ended {
            sum,
            power,
            last,
            next,
        } => {
            if last''','''    if at < s.len() {
        if 3 < s.len() - at {
            let a = s[at];
            if a < 128 {
                return ends((a % 128) as u64, 128, a, at + 1);
            }
            let b = s[at + 1];
            let two = (a % 128) as u64 + (b % 128) as u64 * 128;
            if b < 128 {
                return ends(two, 0x4000, b, at + 2);
            }
            let c = s[at + 2];
            let three = two + (c % 128) as u64 * 0x4000;
            if c < 128 {
                return ends(three, 0x20_0000, c, at + 3);
            }
            let d = s[at + 3];
            if d < 128 {
                return ends(three + (d % 128) as u64 * 0x20_0000, 0x1000_0000, d, at + 4);
            }
        }
    }
    match nine(s, at) {
        Run::Ended {
            sum,
            power,
            last,
            next,
        } => {
            if last'''))
@edit
def slow(): # after two and four: the long readings in functions of their own
    p=d+'/crates/leb128/src/lib.rt'; s=open(p).read()
    i=s.index('pub fn signed('); j=s.index('    match nine(s, at) {',i)
    s=s[:j]+'''    signed_long(s, at)
}

fn signed_long(s: &[u8], at: usize) -> Leb {
'''+s[j:]
    i=s.index('pub fn unsigned('); j=s.index('    match nine(s, at) {',i)
    s=s[:j]+'''    unsigned_long(s, at)
}

fn unsigned_long(s: &[u8], at: usize) -> Leb {
'''+s[j:]
    open(p,'w').write(s)
for n in sys.argv[2:]: E[n]()
