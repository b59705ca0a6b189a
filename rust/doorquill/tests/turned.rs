//! A real file as a big-endian host would have written it: every number of fixed size turned round, reals too. Read by
//! the flag it has the events of the file as it is.
use doorquill::ghw::open;
use doorquill::{read_sections_as, Event, How, Kind, Tables};

struct Turning<'a> {
    tables: &'a Tables,
    out: Vec<u8>,
    at: usize,
}

impl Turning<'_> {
    fn fixed(&mut self, length: usize) -> Vec<u8> {
        let field = &mut self.out[self.at..self.at + length];
        let little = field.to_vec();
        field.reverse();
        self.at += length;
        little
    }

    /// The low seven bits of each byte of a LEB128 number.
    fn number(&mut self) -> Vec<u8> {
        let length = self.out[self.at..].iter().position(|byte| *byte < 128).unwrap() + 1;
        self.at += length;
        self.out[self.at - length..self.at].iter().map(|byte| byte & 127).collect()
    }

    fn value(&mut self, id: u32) {
        match self.tables.kind(id).unwrap() {
            Kind::F64 => drop(self.fixed(8)),
            Kind::Leb128Signed => drop(self.number()),
            _ => self.at += 1,
        }
    }

    fn cycle(&mut self) {
        self.fixed(8);
        loop {
            let mut id = 0;
            loop {
                let delta = self.number().iter().rev().fold(0, |sum, bits| sum << 7 | u32::from(*bits));
                if delta == 0 {
                    break;
                }
                id += delta;
                self.value(id);
            }
            // a delta below 0 ends the cycle
            if self.number().last().unwrap() & 64 != 0 {
                return;
            }
        }
    }

    fn directory(&mut self) {
        self.at += 4;
        let count = self.fixed(4);
        for _ in 0..u32::from_le_bytes([count[0], count[1], count[2], count[3]]) {
            self.at += 4;
            self.fixed(4);
        }
    }
}

/// Little-endian sections that are read to their end, turned round.
fn turned(tables: &Tables, sections: &[u8]) -> Vec<u8> {
    let mut turning = Turning { tables, out: sections.to_vec(), at: 0 };
    loop {
        turning.at += 4;
        match &turning.out[turning.at - 4..turning.at] {
            b"SNP\0" => {
                turning.at += 4;
                turning.fixed(8);
                (1..=tables.signals() as u32).for_each(|id| turning.value(id));
            }
            b"CYC\0" => turning.cycle(),
            b"DIR\0" => turning.directory(),
            _ => return turning.out,
        }
        // the end mark
        turning.at += 4;
    }
}

#[test]
fn a_real_file_turned_round() {
    let file = std::fs::read(concat!(env!("CARGO_MANIFEST_DIR"), "/../samples/kinds_small.ghw")).unwrap();
    let trace = open(&file).unwrap();
    let (tables, big) = (trace.tables(), turned(trace.tables(), trace.sections()));
    assert!(!trace.big_endian() && tables.has_reals() && big != trace.sections());
    let read = |big_endian, reals_by_flag, sections: &[u8]| {
        let reading = read_sections_as(tables, How { big_endian, reals_by_flag }, sections).unwrap();
        let (events, values) = reading.records();
        (events.to_vec(), values.to_vec(), reading)
    };
    let little = read(false, false, trace.sections());
    let by_flag = read(true, true, &big);
    assert!((&by_flag.0, &by_flag.1) == (&little.0, &little.1));
    assert!(by_flag.2.events().any(|event| matches!(event, Event::Real { value, .. } if value != 0.0)));
    // as wellen reads it, reals are wrong and nothing else is
    let as_wellen = read(true, false, &big);
    assert!(as_wellen.0 != little.0 && as_wellen.1 == little.1);
    let rest = |reading: &doorquill::Reading| {
        let other = |event: &Event| !matches!(event, Event::Real { .. });
        reading.events().filter(other).map(|event| format!("{event:?}")).collect::<Vec<_>>()
    };
    assert_eq!(rest(&as_wellen.2), rest(&little.2));
}
