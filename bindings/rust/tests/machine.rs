//! What the crate tells of small tables.
use acpins::*;

/// A table with this code, of revision 2.
fn table(signature: &[u8; 4], code: &[u8]) -> Vec<u8> {
    let length = 36 + code.len() as u32;
    let mut table = signature.to_vec();
    table.extend(length.to_le_bytes());
    table.push(2);
    table.resize(36, 0);
    table.extend(code);
    let sum = table
        .iter()
        .fold(0, |sum: u8, byte| sum.wrapping_add(*byte));
    table[9] = sum.wrapping_neg();
    table
}

/// A package: its opcode, its length in one byte, what it holds.
fn package(opcode: &[u8], inside: &[&[u8]]) -> Vec<u8> {
    let inside = inside.concat();
    [opcode, &[inside.len() as u8 + 1], &inside].concat()
}

fn loaded(code: &[u8]) -> Machine {
    Machine::load(&[&table(b"DSDT", code)], 16).expect("it loads")
}

#[test]
fn objects_stand_in_a_tree() {
    let inner = package(b"\x5B\x82", &[b"PCI0", b"\x08_ADR\0", b"\x08_UID\x01"]);
    let machine = loaded(&package(b"\x10", &[b"\\_SB_", &inner]));
    let paths: Vec<&str> = machine.objects().map(|it| it.path().as_str()).collect();
    let own = ["\\_SB_.PCI0", "\\_SB_.PCI0._ADR", "\\_SB_.PCI0._UID"];
    assert!(own.iter().all(|it| paths.contains(it)));
    assert!(paths.is_sorted());
    let device = machine.get("\\_SB.PCI0").expect("it is there");
    assert!(matches!(device.kind(), Kind::Device));
    assert_eq!(device.parent(), machine.get("\\_SB_"));
    assert_eq!(machine.root().parent(), None);
    assert!(device
        .children()
        .map(|it| it.path())
        .eq(own[1..].iter().copied()));
    assert_eq!(
        machine.root().descendants().count() + 1,
        machine.objects().len()
    );
    assert_eq!(device.descendants().next_back(), machine.get(own[2]));
    assert_eq!(machine.get("\\_SB_.PCI1"), None);
    assert_eq!(device.line(), "\\_SB_.PCI0 Device");
    assert!(machine
        .text()
        .lines()
        .eq(machine.objects().map(|it| it.line())));
    assert_eq!(
        format!("{device:?} {:?}", device.path()),
        "\\_SB_.PCI0 Device \\_SB_.PCI0"
    );
}

#[test]
fn names_have_data() {
    let buffer = package(b"\x11", &[b"\x0A\x04", b"\x01\x02"]);
    let nested = package(b"\x13", &[b"\x0A\x02", b"\\_SB_"]);
    let elements = package(
        b"\x12",
        &[
            b"\x07",
            b"\x0Dab\"\x00",
            &buffer,
            &nested,
            b"\x5B\x30",
            b"\xFF",
        ],
    );
    let machine = loaded(&[b"\x08AAAA", elements.as_slice()].concat());
    let Kind::Name(Data::Package { count: 7, elements }) =
        machine.get("\\AAAA").expect("it is there").kind()
    else {
        panic!("no package");
    };
    let all: Vec<Data> = elements.collect();
    let [Data::String("ab\""), Data::Buffer {
        size,
        bytes: [1, 2],
    }, Data::VarPackage { count, elements }, revision, ones] = all[..]
    else {
        panic!("{all:?}");
    };
    assert_eq!((size, count), (Constant::Byte(4), Constant::Byte(2)));
    assert!(matches!(
        elements.collect::<Vec<_>>()[..],
        [Data::Reference("\\_SB_")]
    ));
    assert!(matches!(revision, Data::Integer(Constant::Revision)));
    assert!(matches!(ones, Data::Integer(Constant::Ones)));
    assert_eq!(Constant::Revision.value(), None);
    assert_eq!(size.value(), Some(4));
    let line = "\\AAAA Name Package(7){\"ab\\x22\", Buffer(0x04){01 02}, VarPackage(0x02){\\_SB_}, Revision, Ones}";
    assert_eq!(machine.get("\\AAAA").map(|it| it.line()), Some(line));
}

#[test]
fn fields_link_to_regions() {
    let field = package(b"\x5B\x81", &[b"REG0", b"\x01", b"\x00\x04", b"FLD0\x08"]);
    let machine = loaded(&[b"\x5B\x80REG0\x01\x0B\x00\x01\x0A\x20".as_slice(), &field].concat());
    let region = machine.get("\\REG0").expect("it is there");
    let Kind::Region {
        space: Space::SystemIo,
        offset,
        length,
    } = region.kind()
    else {
        panic!("{region:?}");
    };
    assert_eq!(
        (offset, length),
        (Constant::Word(0x100), Constant::Byte(0x20))
    );
    let unit = machine.get("\\FLD0").expect("it is there");
    assert!(matches!(
        unit.kind(),
        Kind::Field(FieldUnit {
            flags: 1,
            offset: 4,
            bits: 8
        })
    ));
    assert!(unit.links().eq([Some(region)]));
    assert_eq!(region.links().len(), 0);
    let absent = loaded(&package(b"\x5B\x81", &[b"REG0", b"\x01", b"FLD0\x08"]));
    assert!(absent
        .get("\\FLD0")
        .expect("it is there")
        .links()
        .eq([None]));
}

#[test]
fn methods_have_code_and_a_body() {
    let read = package(b"\x14", &[b"READ", b"\x0A", b"\xA4\x68"]);
    let opaque = package(b"\x14", &[b"OPAQ", b"\x00", b"\xA3\x06"]);
    let dsdt = table(b"DSDT", &[read, opaque].concat());
    let tables: [&[u8]; 1] = [&dsdt];
    let machine = Machine::load(&tables, 16).expect("it loads");
    let method = machine.get("\\READ").expect("it is there");
    assert!(matches!(
        method.kind(),
        Kind::Method {
            arguments: 2,
            serialized: true,
            sync_level: 0
        }
    ));
    let code = method.code().expect("a table declares it");
    assert_eq!((code.table, code.offset, code.length), (0, 43, 2));
    assert_eq!(code.bytes(&tables), Some(&b"\xA4\x68"[..]));
    assert_eq!(machine.get("\\_OSI").and_then(|it| it.code()), None);
    assert_eq!(
        body(&tables, "\\READ", 16),
        Ok(Body::Read("Return(Arg0)\n".into()))
    );
    let not_read = Body::Opaque {
        bytes: vec![0xA3, 0x06],
        reason: BodyReason::LeftOut,
        place: 1,
    };
    assert_eq!(body(&tables, "\\OPAQ", 16), Ok(not_read));
    assert_eq!(body(&tables, "\\_OSI", 16), Err(Fault::NoMethod));
    assert_eq!(body(&tables, "\\NONE", 16), Err(Fault::NoMethod));
    assert_eq!(body(&tables, "READ", 16), Err(Fault::BadPath));
}

#[test]
fn faults_tell_the_table_the_reason_and_the_place() {
    let computed = table(b"DSDT", b"\x5B\x80REG0\x00ADDR\x01");
    let fault = Machine::load(&[&computed], 16).expect_err("it is refused");
    let reason = Reason::Code {
        reason: CodeReason::Computed,
        place: 43,
    };
    assert_eq!(fault, Fault::Refused { table: 0, reason });
    assert_eq!(fault.to_string(), "table 0: K6 Computed at 43");
    let twice = table(b"SSDT", b"\x08AAAA\x00\x08AAAA\x00");
    let fault = Machine::load(&[&table(b"DSDT", b""), &twice], 16).expect_err("it is refused");
    assert_eq!(fault.to_string(), "table 1: E6 Taken \\AAAA");
    assert!(matches!(
        rewrite(&[&twice], 16),
        Err(Fault::Refused {
            reason: Reason::Signature(SignatureReason::NotDsdt),
            ..
        })
    ));
    assert_eq!(Machine::load(&[], 16).err(), Some(Fault::NoTable));
    assert_eq!(Machine::load(&[&twice], 0).err(), Some(Fault::BadDepth));
    assert_eq!(check(&[&twice], 4097), Err(Fault::BadDepth));
    assert!(matches!(
        Machine::load(&[&[]], 16),
        Err(Fault::Refused {
            reason: Reason::Table(TableReason::Short),
            ..
        })
    ));
}

#[test]
fn ssdts_commute_or_not() {
    let dsdt = table(b"DSDT", b"");
    let (one, other) = (
        table(b"SSDT", b"\x08AAAA\x00"),
        table(b"SSDT", b"\x08BBBB\x00"),
    );
    assert_eq!(
        check(&[&dsdt, &one, &other], 16),
        Ok(Verdict::Commute { satisfied: vec![] })
    );
    let same = Verdict::Same {
        first: 1,
        second: 2,
        path: "\\AAAA".into(),
    };
    assert_eq!(check(&[&dsdt, &one, &one], 16), Ok(same));
    let reads = table(b"SSDT", &package(b"\x14", &[b"READ", b"\x00", b"\xA4BBBB"]));
    let missed = Verdict::Missed {
        searcher: 1,
        definer: 2,
        path: "\\BBBB".into(),
    };
    assert_eq!(check(&[&dsdt, &reads, &other], 16), Ok(missed));
    let alone = table(b"SSDT", &package(b"\x10", &[b"\\DEV0"]));
    let reason = Reason::Declaration {
        reason: DeclarationReason::Missing,
        path: "\\DEV0".into(),
    };
    assert_eq!(
        check(&[&dsdt, &alone], 16),
        Ok(Verdict::NotAlone { ssdt: 1, reason })
    );
    let calls = package(b"\x14", &[b"CALL", b"\x00", b"\xA4MTH1\x01"]);
    let calls = table(
        b"SSDT",
        &[b"\x15\\MTH1\x08\x01".as_slice(), &calls].concat(),
    );
    let defines = table(b"SSDT", &package(b"\x14", &[b"MTH1", b"\x01"]));
    let satisfied = vec![Satisfied {
        user: 1,
        definer: 2,
        path: "\\MTH1".into(),
    }];
    assert_eq!(
        check(&[&dsdt, &calls, &defines], 16),
        Ok(Verdict::Commute { satisfied })
    );
}

#[test]
fn only_a_dsdt_is_refused_by_a_check() {
    let (dsdt, ssdt) = (table(b"DSDT", b""), table(b"SSDT", b"\x06"));
    assert!(matches!(
        check(&[&dsdt, &ssdt], 16),
        Ok(Verdict::NotAlone { ssdt: 1, .. })
    ));
    assert!(matches!(
        check(&[&table(b"DSDT", b"\x06"), &ssdt], 16),
        Err(Fault::Refused { table: 0, .. })
    ));
}

#[test]
fn tables_are_rewritten() {
    let (long, short) = (
        table(b"DSDT", b"\x10\x44\x00\\\x00"),
        table(b"DSDT", b"\x10\x03\\\x00"),
    );
    let ssdt = table(b"SSDT", b"\x08AAAA\x00");
    assert_eq!(rewrite(&[&long, &ssdt], 16), Ok(vec![short, ssdt]));
}
