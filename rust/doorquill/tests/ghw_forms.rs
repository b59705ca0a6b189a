//! Files made by hand: what becomes of each form, and what each fault is called.
mod ghw_builder;

use doorquill::ghw::{open, Direction, HeaderFault, Relation, ScopeKind, Values};
use doorquill::{Kind, States};
use ghw_builder::{downto, unsigned, File};

/// The path, type, width and reference of each signal, and what it is of.
fn listed(file: &File) -> Vec<String> {
    let bytes = file.bytes();
    let trace = open(&bytes).unwrap();
    for signal in trace.signals() {
        assert_eq!(trace.find(&signal.path()), Some(signal));
    }
    let relation = |relation: Relation| match relation {
        Relation::Own => String::new(),
        Relation::Alias(of) => format!(" = {}", of.path()),
        Relation::Slice(of) => format!(" slice of {}", of.path()),
        Relation::Bit(of) => format!(" bit of {}", of.path()),
        Relation::Scattered => " scattered".into(),
        Relation::Empty => " empty".into(),
    };
    let line = |s: doorquill::ghw::Signal| {
        let reference = s.reference().map_or("-".into(), |r| r.to_string());
        format!("{} {} {} {reference}{}", s.path(), s.type_name(), s.width(), relation(s.relation()))
    };
    trace.signals().map(line).collect()
}

/// The place and the sentence that a file is refused with.
fn fault(bytes: &[u8]) -> (usize, String) {
    match open(bytes) {
        Err(error) => {
            assert!(error.place <= bytes.len());
            (error.place, error.sentence)
        }
        Ok(_) => panic!("the file was opened"),
    }
}

#[test]
fn ids_become_vectors_aliases_slices_bits_and_scattered_ones() {
    let mut file = File::new();
    let slv = file.array("slv", 2);
    let word = file.bound("", slv, 3, &[]);
    let pair = file.bound("", slv, 1, &[]);
    let lone = file.bound("lone", slv, 0, &[]);
    let none = file.bound("", slv, -1, &[]);
    file.instance("top");
    file.fresh("word", word, 4); // 1 to 4
    file.fresh("a", 2, 1); // 5
    file.fresh("b", 2, 1); // 6
    file.fresh("lone", lone, 1); // 7
    file.signal("same", word, 1..=4);
    file.signal("slice", pair, 2..=3);
    file.signal("slice_again", pair, 2..=3);
    file.signal("bit", 2, [4]);
    file.signal("bit_as_vector", lone, [4]);
    file.signal("lone_as_bit", 2, [7]);
    file.signal("a_as_vector", lone, [5]);
    file.signal("crossed", pair, [6, 5]);
    file.signal("over_the_end", pair, [4, 5]);
    file.signal("neighbours", pair, [5, 6]);
    file.signal("partly_new", pair, [7, 8]);
    file.signal("twice", pair, [9, 9]);
    file.signal("none", none, []);
    file.end();
    let wanted = [
        "top.word slv(3 downto 0) 4 1",
        "top.a std_ulogic 1 2",
        "top.b std_ulogic 1 3",
        "top.lone lone 1 4",
        "top.same slv(3 downto 0) 4 1 = top.word",
        "top.slice slv(1 downto 0) 2 - slice of top.word",
        "top.slice_again slv(1 downto 0) 2 - slice of top.word",
        "top.bit std_ulogic 1 - bit of top.word",
        "top.bit_as_vector lone 1 - bit of top.word",
        "top.lone_as_bit std_ulogic 1 4 = top.lone",
        "top.a_as_vector lone 1 2 = top.a",
        "top.crossed slv(1 downto 0) 2 - scattered",
        "top.crossed(1) std_ulogic 1 3 = top.b",
        "top.crossed(0) std_ulogic 1 2 = top.a",
        "top.over_the_end slv(1 downto 0) 2 - scattered",
        "top.over_the_end(1) std_ulogic 1 - bit of top.word",
        "top.over_the_end(0) std_ulogic 1 2 = top.a",
        "top.neighbours slv(1 downto 0) 2 - scattered",
        "top.neighbours(1) std_ulogic 1 2 = top.a",
        "top.neighbours(0) std_ulogic 1 3 = top.b",
        "top.partly_new slv(1 downto 0) 2 - scattered",
        "top.partly_new(1) std_ulogic 1 4 = top.lone",
        "top.partly_new(0) std_ulogic 1 7",
        "top.twice slv(1 downto 0) 2 - scattered",
        "top.twice(1) std_ulogic 1 8",
        "top.twice(0) std_ulogic 1 8 = top.twice(1)",
        "top.none slv(-1 downto 0) 0 - empty",
    ];
    assert_eq!(listed(&file), wanted);
    let bytes = file.bytes();
    let trace = open(&bytes).unwrap();
    let tables = trace.tables();
    assert_eq!((trace.ids(), tables.signals(), tables.vectors()), (9, 9, 2));
    let kinds: Vec<Kind> = (1..=9).filter_map(|id| tables.kind(id)).collect();
    let (vec, one) = (Kind::NineStateVec, Kind::NineState);
    assert_eq!(kinds, [vec, vec, vec, vec, one, one, vec, one, one]);
    assert_eq!(tables.vector_states(1), Some(States::Nine));
    assert_eq!(trace.find("top.slice").unwrap().bits(), Some((2, 1)));
    assert_eq!(trace.find("top.bit").unwrap().bits(), Some((0, 0)));
    assert_eq!(trace.find("top.crossed").unwrap().ids(), [6, 5]);
    assert_eq!(trace.signal_of(4).map(|s| s.path()), Some("top.word".into()));
    // the tables are good: the proved call takes them and an empty run
    let empty = doorquill::read_sections(tables, false, b"TAI\0\0\0\0\0\0\0\0\0").unwrap();
    assert_eq!(empty.steps(), 0);
}

#[test]
fn records_and_arrays_are_their_elements() {
    let mut file = File::new();
    let colour = file.enumeration("colour", &["red", "green"]);
    let slv = file.array("slv", 2);
    let words = file.array("words", slv);
    let memory = file.bound("", words, 1, &downto(2));
    let empty = file.bound("", slv, -1, &[]);
    let open_record = file.record("message", &[("tag", 1), ("nothing", empty), ("payload", slv), ("hue", colour)]);
    let message = file.kind(38, "", &[unsigned(open_record), downto(1)].concat());
    let renamed = file.kind(37, "words_again", &unsigned(words));
    let again = file.bound("", renamed, 0, &downto(1));
    let by_colour = file.kind(31, "by_colour", &[unsigned(1), vec![2], unsigned(colour), unsigned(3)].concat());
    let grid = file.kind(35, "grid", &[unsigned(by_colour), vec![23, 0, 1], vec![25, 5, 6]].concat());
    let small = file.kind(34, "", &[unsigned(3), vec![25, 0, 9]].concat());
    let physical = file.string("fs");
    let time = file.kind(29, "time", &[vec![1], unsigned(physical), vec![1]].concat());
    let real = file.kind(27, "real", &[]);
    file.instance("top");
    file.fresh("memory", memory, 6);
    file.fresh("message", message, 4);
    file.fresh("again", again, 2);
    file.fresh("grid", grid, 4);
    file.fresh("small", small, 1);
    file.fresh("late", time, 1);
    file.fresh("level", real, 1);
    file.end();
    let wanted = [
        "top.memory(1) slv(2 downto 0) 3 1",
        "top.memory(0) slv(2 downto 0) 3 2",
        "top.message.tag bit 1 3",
        "top.message.payload slv(1 downto 0) 2 4",
        "top.message.hue colour 1 5",
        "top.again(0) slv(1 downto 0) 2 6",
        "top.grid(red,5) bit 1 7",
        "top.grid(red,6) bit 1 8",
        "top.grid(green,5) bit 1 9",
        "top.grid(green,6) bit 1 10",
        "top.small natural range 0 to 9 1 11",
        "top.late time 1 12",
        "top.level real 1 13",
    ];
    assert_eq!(listed(&file), wanted);
    let bytes = file.bytes();
    let trace = open(&bytes).unwrap();
    let of = |path| trace.find(path).unwrap();
    assert_eq!(of("top.message.hue").literals(), ["red", "green"]);
    assert_eq!(of("top.message.hue").kind(), Some(Kind::U8));
    assert_eq!(of("top.late").units(), [("fs".to_string(), 1)]);
    assert_eq!(of("top.late").values(), Values::Physical);
    assert_eq!(of("top.level").kind(), Some(Kind::F64));
    assert_eq!(trace.elements("top.message").len(), 3);
    assert_eq!(trace.elements("top.memory(1)").len(), 0);
    assert_eq!(trace.elements("top.mem").len(), 0);
}

#[test]
fn scopes_by_name() {
    let mut file = File::new();
    let lane = unsigned(file.string("lane"));
    let name = unsigned(file.string("s"));
    file.instance("rbc");
    file.entry(13, &lane); // a process has no scope of its own
    file.entry(5, &[&lane[..], &[3], &[3]].concat());
    file.fresh("s", 2, 1);
    file.entry(17, &[&name[..], &[2], &[1]].concat());
    file.end();
    file.entry(7, &lane);
    file.end();
    file.end();
    let bytes = file.bytes();
    let trace = open(&bytes).unwrap();
    let scopes: Vec<_> = trace.scopes().map(|s| (s.path(), s.kind(), s.ids())).collect();
    let wanted = [
        ("rbc".to_string(), ScopeKind::Instance, 0),
        ("rbc.lane(3)".to_string(), ScopeKind::ForGenerate, 1),
        ("rbc.lane".to_string(), ScopeKind::Package, 0),
    ];
    assert_eq!(scopes, wanted);
    let directions: Vec<_> = trace.signals().map(|s| (s.path(), s.direction())).collect();
    assert_eq!(directions[0], ("rbc.lane(3).s".into(), Direction::Signal));
    assert_eq!(directions[1], ("rbc.lane(3).s".into(), Direction::In));
    assert_eq!(trace.find_scope("rbc.lane(3)").map(|s| s.kind()), Some(ScopeKind::ForGenerate));
    assert!(trace.find_scope("rbc.lan").is_none() && trace.find_scope("").is_none());
    assert!(trace.find("rbc").is_none() && trace.find("s").is_none() && trace.find("").is_none());
}

/// A scope or a signal may be without a name: its dot stays, so that every path leads back to its signal.
#[test]
fn anonymous_scopes() {
    let mut file = File::new();
    file.fresh("s", 2, 1);
    file.instance("");
    file.fresh("s", 2, 1);
    file.instance("");
    file.fresh("", 2, 1);
    file.end();
    file.end();
    assert_eq!(listed(&file), ["s std_ulogic 1 1", ".s std_ulogic 1 2", ".. std_ulogic 1 3"]);
}

#[test]
fn big_endian_files() {
    let mut file = File::new();
    file.fresh("s", 2, 1);
    let little = file.bytes();
    file.big_endian = true;
    let big = file.bytes();
    assert_ne!(little, big);
    let (one, other) = (open(&little).unwrap(), open(&big).unwrap());
    assert!(!one.big_endian() && other.big_endian());
    assert_eq!(one.tables(), other.tables());
}

#[test]
fn what_is_no_ghw_file() {
    let place_and_fault = |bytes: &[u8]| open(bytes).map(|_| ()).map_err(|e| (e.place, e.fault));
    assert_eq!(place_and_fault(b"\x1f\x8b\x08"), Err((0, HeaderFault::Compressed("gzip"))));
    assert_eq!(place_and_fault(b"BZh9"), Err((0, HeaderFault::Compressed("bzip2"))));
    assert_eq!(place_and_fault(b""), Err((0, HeaderFault::Ended)));
    assert_eq!(place_and_fault(b"GHDLw"), Err((5, HeaderFault::Ended)));
    assert_eq!(place_and_fault(b"$date"), Err((0, HeaderFault::NotGhw)));
    let good = File::new().bytes();
    for (place, byte, sentence) in [
        (9, 15, "the header's length is 15, and must be 16"),
        (10, 1, "version 1.1: only 0.0 and 0.1 are known"),
        (11, 2, "version 0.2: only 0.0 and 0.1 are known"),
        (12, 3, "the byte order is 3, and must be 1, little, or 2, big"),
        (13, 8, "words of 8 bytes: they must have 4"),
        (14, 2, "offsets of 2 bytes: they have 1, 4 or 8"),
        (15, 1, "the header's last byte must be zero"),
        (16, b'X', "the mark STR must stand here"),
        (20, 1, "four zero bytes must follow the mark STR"),
    ] {
        let mut bad = good.clone();
        bad[place] = byte;
        let at = if place == 11 { 10 } else { place };
        assert_eq!(fault(&bad), (at, sentence.to_string()));
    }
}

/// The sentence that a file is refused with.
fn sentence(build: impl Fn(&mut File)) -> String {
    let mut file = File::new();
    build(&mut file);
    fault(&file.bytes()).1
}

#[test]
fn faults_of_types() {
    let is = |build: fn(&mut File), wanted: &str| assert_eq!(sentence(build), wanted);
    is(|f| drop(f.kind(99, "t", &[])), "99 is no type's kind");
    is(|f| drop(f.kind(31, "t", &[1, 0])), "an array without dimensions");
    is(|f| drop(f.kind(31, "t", &[4, 1, 3])), "type 4 of 3 so far");
    is(|f| drop(f.kind(31, "t", &[0, 1, 3])), "type 0 of 3 so far");
    is(|f| drop(f.kind(34, "t", &[3, 99, 0, 0])), "99 is no kind of a range");
    is(|f| drop(f.kind(35, "t", &[1, 25, 0, 0])), "bounds of an array for a type that is none");
    is(|f| drop(f.kind(38, "t", &[1])), "bounds of a record for a type that is none");
    is(|f| drop(f.kind(37, "t", &[1])), "an unbounded subtype of a type that is bounded or of another sort");
    is(|f| drop(f.kind(23, "t", &[0x80, 0x80, 1])), "16384 literals in the 35 bytes that are left");
    is(|f| drop(f.kind(23, "t", &[1, 99])), "string 99 of 13");
    let real = [[27].as_slice(), &[0; 16]].concat();
    let sentence = sentence(|f| {
        let array = f.array("a", 1);
        f.kind(35, "t", &[unsigned(array), real.clone()].concat());
    });
    assert_eq!(sentence, "a range of reals for an array");
    let sentence = self::sentence(|f| {
        let array = f.array("a", 1);
        f.kind(34, "t", &[unsigned(array), vec![25, 0, 0]].concat());
    });
    assert_eq!(sentence, "a scalar subtype of a type that is no scalar");
}

#[test]
fn faults_of_the_hierarchy() {
    let is = |build: fn(&mut File), wanted: &str| assert_eq!(sentence(build), wanted);
    is(|f| f.end(), "a scope's end without a scope");
    is(|f| f.instance("a"), "the hierarchy ends inside a scope");
    is(|f| f.entry(9, &[]), "9 is no kind of a hierarchy's entry");
    is(|f| f.signal("s", 2, [2]), "id 2 where the highest so far is 0");
    is(|f| f.signal("s", 2, [0]), "id 0 where the highest so far is 0");
    is(
        |f| {
            f.fresh("s", 2, 1);
            f.signal("t", 1, [1]);
        },
        "id 1 again, for a signal of another kind",
    );
    is(|f| f.signal("s", 9, [1]), "type 9 of 3 so far");
    is(
        |f| {
            let array = f.array("a", 1);
            f.signal("s", array, [1]);
        },
        "a signal of a, which has no bounds",
    );
    is(
        |f| {
            let array = f.array("a", 1);
            let bound = f.bound("", array, 99, &[]);
            f.fresh("s", bound, 1);
        },
        "a signal of 100 scalars in the 6 bytes that are left",
    );
}

/// Files that nest or multiply without end are refused, or cost no more than their size justifies: each of these comes
/// back within moments.
#[test]
fn nests_and_products() {
    let mut nested = File::new();
    let mut of = 1;
    for _ in 0..40 {
        of = nested.record("r", &[("f", of)]);
    }
    assert_eq!(fault(&nested.bytes()).1, "types nested more than 32 deep");

    let mut scopes = File::new();
    (0..2_000).for_each(|_| scopes.instance("s"));
    assert_eq!(fault(&scopes.bytes()).1, "scopes nested more than 1024 deep");

    // 2^31 elements of 2^31 elements .., each array a few bytes
    let mut product = File::new();
    let mut of = 1;
    for _ in 0..8 {
        let open = product.array("a", of);
        of = product.bound("b", open, i64::from(i32::MAX), &[]);
    }
    product.fresh("s", of, 4);
    assert!(fault(&product.bytes()).1.starts_with("a signal of 18446744073709551615 scalars"));

    // as many elements, but each empty
    let mut empty = File::new();
    let open = empty.array("a", 1);
    let none = empty.bound("n", open, -1, &[]);
    let open = empty.array("b", none);
    let many = empty.bound("m", open, i64::MAX - 1, &[]);
    (0..1_000).for_each(|_| empty.fresh("s", many, 0));
    assert_eq!(open_count(&empty), 1_000);

    // a record of many elements, of which one has bits, a thousand times
    let mut wide = File::new();
    let open = wide.array("a", 1);
    let none = wide.bound("n", open, -1, &[]);
    let mut fields = vec![("x", none); 20_000];
    fields.push(("y", 1));
    let record = wide.record("r", &fields);
    (0..1_000).for_each(|_| wide.fresh("s", record, 1));
    assert_eq!(open_count(&wide), 1_000);

    // subtypes that repeat a large record
    let mut repeated = File::new();
    let record = repeated.record("r", &vec![("x", 1); 20_000]);
    (0..2_000).for_each(|_| drop(repeated.kind(38, "", &unsigned(record))));
    assert_eq!(fault(&repeated.bytes()).1, "more elements of records than the file's size can account for");

    // a string of 60,000 bytes, shared ten thousand times
    let mut strings = b"GHDLwave\n\x10\0\x01\x01\x04\x01\0STR\0\0\0\0\0".to_vec();
    strings.extend(10_001u32.to_le_bytes());
    strings.extend([0; 4]);
    strings.extend([b'a'; 60_000]);
    // 60,000 is 0, 19, 26 and 1 in five bits each
    let share = [0x80, 0x80 | 19, 0x80 | 26, 1];
    for _ in 0..10_000 {
        strings.extend(share);
    }
    strings.extend([0; 1]);
    strings.extend(b"EOS\0");
    let place = strings.len();
    assert_eq!(fault(&strings), (place, "the file ends inside the types".into()));

    // a chain of anonymous subtypes
    let mut chain = File::new();
    let mut of = 3;
    for _ in 0..20_000 {
        of = chain.kind(34, "", &[unsigned(of), vec![25, 0, 9]].concat());
    }
    chain.fresh("s", of, 1);
    assert_eq!(listed(&chain), ["s natural range 0 to 9 1 1"]);
}

fn open_count(file: &File) -> usize {
    open(&file.bytes()).unwrap().signals().count()
}
