//! Sections and change records, written as the rules have them.
#![allow(dead_code)]

/// An unsigned LEB128 number in its shortest form.
pub fn leb(mut n: u64) -> Vec<u8> {
    let mut bytes = vec![];
    while n > 127 {
        bytes.push(n as u8 | 128);
        n >>= 7;
    }
    bytes.push(n as u8);
    bytes
}

pub fn snapshot(values: &[u8]) -> Vec<u8> {
    [&b"SNP\0"[..], &[0; 12], values, b"ESN\0"].concat()
}

/// A cycle from time 0, one femtosecond from step to step; a step is a list of ids and values.
pub fn cycle(steps: &[Vec<(u32, u8)>]) -> Vec<u8> {
    let mut bytes = b"CYC\0\0\0\0\0\0\0\0\0".to_vec();
    for (i, step) in steps.iter().enumerate() {
        let mut last = 0;
        for &(id, value) in step {
            bytes.extend(leb(u64::from(id - last)));
            bytes.push(value);
            last = id;
        }
        bytes.extend([0, if i + 1 == steps.len() { 0x7f } else { 1 }]);
    }
    bytes.extend(b"ECY\0");
    bytes
}

pub const TAILER: [u8; 12] = *b"TAI\0\0\0\0\0\0\0\0\0";

pub fn time(time: u64) -> Vec<u8> {
    [&[1][..], &time.to_be_bytes()].concat()
}

pub fn write(id: u32, value: u8) -> Vec<u8> {
    [&[2][..], &id.to_be_bytes(), &[value]].concat()
}

pub fn wide(id: u32, value: u64) -> Vec<u8> {
    [&[3][..], &id.to_be_bytes(), &value.to_be_bytes()].concat()
}

pub const STEP_END: [u8; 1] = [4];
