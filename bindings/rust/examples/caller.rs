//! caller COMMAND [--depth N] WORD..: answers as the program `acpins` does, by the library: `list`,
//! `show`, `check` and `rewrite`. `typed` prints what `list` prints, each line made anew from what
//! the library tells of its object; `records` holds what it tells against each other, and prints
//! how many objects and bodies it saw.
use acpins::{body, check, rewrite, Body, Data, Fault, Kind, Machine, Object, Reason, Verdict};
use std::io::Write;
use std::process::ExitCode;

/// The bytes of a table's header (ACPI 6.5, 5.2.6).
const HEADER_BYTES: usize = 36;

/// What a run prints, and its status.
struct Output {
    text: Vec<u8>,
    status: u8,
}

impl From<Vec<u8>> for Output {
    fn from(text: Vec<u8>) -> Output {
        Output { text, status: 0 }
    }
}

/// Why a run fails: the line and the status.
struct Failure(String, u8);

impl From<Fault> for Failure {
    fn from(fault: Fault) -> Failure {
        let status = if fault == Fault::BadPath { 2 } else { 1 };
        Failure(fault.to_string(), status)
    }
}

impl From<std::io::Error> for Failure {
    fn from(error: std::io::Error) -> Failure {
        Failure(error.to_string(), 1)
    }
}

/// The tables of a file: it is cut where each table ends, and what is no whole table is one to the
/// file's end.
fn cut(file: &[u8]) -> Vec<&[u8]> {
    let (mut rest, mut tables) = (file, Vec::new());
    while !rest.is_empty() {
        let length = rest.get(4..8).and_then(|it| it.try_into().ok());
        let length = length.map_or(0, u32::from_le_bytes) as usize;
        let is_whole = (HEADER_BYTES..=rest.len()).contains(&length);
        let (table, behind) = rest.split_at(if is_whole { length } else { rest.len() });
        tables.push(table);
        rest = behind;
    }
    tables
}

/// The program tells of the first table that is none before it loads any: each table's own load
/// tells that too.
fn refuse_bad_table(tables: &[&[u8]], depth: u32) -> Result<(), Fault> {
    for (table, bytes) in tables.iter().enumerate().filter(|_| tables.len() > 1) {
        match Machine::load(&[bytes], depth) {
            Err(Fault::Refused { reason, .. }) if matches!(reason, Reason::Table(_)) => {
                return Err(Fault::Refused { table, reason });
            }
            _ => {}
        }
    }
    Ok(())
}

/// A line of the listing, made anew.
fn typed_line(object: Object) -> String {
    let numbers = match object.kind() {
        Kind::Processor { id, block, length } => {
            format!(" id={id:02X} block={block:08X} length={length:02X}")
        }
        Kind::PowerResource { level, order } => format!(" level={level:02X} order={order:04X}"),
        Kind::Name(data) => format!(" {data}"),
        Kind::Method {
            arguments,
            serialized,
            sync_level,
        } => {
            let serialized = if serialized { " Serialized" } else { "" };
            let sync = match sync_level {
                0 => String::new(),
                level => format!(" Sync {level}"),
            };
            format!(" {arguments}{serialized}{sync}")
        }
        Kind::Region {
            space,
            offset,
            length,
        } => {
            format!(
                " space={:02X} offset={offset} length={length}",
                u8::from(space)
            )
        }
        Kind::Mutex { flags, .. } => format!(" {flags:02X}"),
        Kind::Field(unit) | Kind::IndexField(unit) => unit_text(unit),
        Kind::BankField { unit, bank } => format!("{} value={bank}", unit_text(unit)),
        Kind::Create { index, .. } => format!(" index={index}"),
        Kind::CreateField { index, bits } => format!(" index={index} bits={bits}"),
        _ => String::new(),
    };
    let links: Vec<&str> = object
        .links()
        .map(|it| it.map_or("-", |it| it.path().as_str()))
        .collect();
    let arrow = if links.is_empty() { "" } else { " -> " };
    format!(
        "{} {}{numbers}{arrow}{}\n",
        object.path(),
        object.kind().name(),
        links.join(", ")
    )
}

fn unit_text(unit: acpins::FieldUnit) -> String {
    format!(
        " offset={} bits={} flags={:02X}",
        unit.offset, unit.bits, unit.flags
    )
}

/// How many parts data has.
fn parts(data: Data) -> usize {
    match data {
        Data::Package { elements, .. } | Data::VarPackage { elements, .. } => {
            1 + elements.map(parts).sum::<usize>()
        }
        _ => 1,
    }
}

/// Holds what is told of objects against each other; how many objects and bodies there are.
fn records(tables: &[&[u8]], depth: u32) -> Result<Vec<u8>, Failure> {
    let machine = Machine::load(tables, depth)?;
    let (mut children, mut bodies, mut data) = (0, 0, 0);
    for object in &machine {
        let path = object.path();
        assert_eq!(machine.get(path.as_str()), Some(object));
        assert_eq!(object.parent().map(|it| it.path()), path.parent());
        assert!(object.children().all(|it| it.parent() == Some(object)));
        let is_below = |it: Object| it.path().segments().count() > path.segments().count();
        assert!(object.descendants().all(is_below));
        children += object.children().count();
        if let Kind::Name(it) = object.kind() {
            data += parts(it);
        }
        let Some(code) = object.code() else { continue };
        let bytes = code
            .bytes(tables)
            .ok_or(Failure("no code there".into(), 1))?;
        bodies += 1;
        if bodies <= 40 {
            match body(tables, path.as_str(), depth)? {
                Body::Read(text) => assert_eq!(text.is_empty(), bytes.is_empty()),
                Body::Opaque { bytes: own, .. } => assert_eq!(own, bytes),
            }
        }
    }
    assert_eq!(children + 1, machine.objects().len());
    assert!(
        data >= machine
            .objects()
            .filter(|it| matches!(it.kind(), Kind::Name(_)))
            .count()
    );
    Ok(format!("{} objects, {bodies} bodies\n", machine.objects().len()).into())
}

fn show(tables: &[&[u8]], depth: u32, path: &str) -> Result<Vec<u8>, Failure> {
    let machine = Machine::load(tables, depth)?;
    let body = match body(tables, path, depth) {
        Ok(body) => Some(body),
        Err(Fault::NoMethod) => None,
        Err(fault) => return Err(fault.into()),
    };
    let object = machine.get(path).ok_or(Failure("no such path".into(), 1))?;
    let mut text = format!("{}\n", object.line());
    match body {
        None => {}
        Some(Body::Read(statements)) => text += &statements,
        Some(Body::Opaque {
            bytes,
            reason,
            place,
        }) => {
            text += "Opaque";
            for byte in bytes {
                text += &format!(" {byte:02X}");
            }
            text += &format!("\nAt {place}: {reason}\n");
        }
    }
    Ok(text.into())
}

fn checked(tables: &[&[u8]], depth: u32) -> Result<Output, Failure> {
    let (text, status) = match check(tables, depth)? {
        Verdict::Commute { satisfied } => {
            let mut text = String::from("commute\n");
            for it in satisfied {
                text += &format!("satisfied {} {} {}\n", it.user, it.definer, it.path);
            }
            (text, 0)
        }
        Verdict::NotAlone { ssdt, reason } => (format!("not alone {ssdt}: {reason}\n"), 3),
        Verdict::Same {
            first,
            second,
            path,
        } => (format!("same {first} {second} {path}\n"), 3),
        Verdict::Missed {
            searcher,
            definer,
            path,
        } => (format!("missed {searcher} {definer} {path}\n"), 3),
        _ => return Err(Failure("another verdict".into(), 1)),
    };
    Ok(Output {
        text: text.into(),
        status,
    })
}

/// Whether a text is a path for the library. It says so before it looks at tables that load.
fn refuse_bad_path(path: &str) -> Result<(), Fault> {
    let mut table = [0; HEADER_BYTES];
    table[..10].copy_from_slice(b"DSDT\x24\0\0\0\x02\xA4");
    match body(&[&table], path, 1) {
        Err(Fault::BadPath) => Err(Fault::BadPath),
        _ => Ok(()),
    }
}

fn run(mut words: Vec<String>) -> Result<Output, Failure> {
    let wrong_words = || Failure("wrong words".into(), 2);
    let mut depth = 1024;
    if words.get(1).is_some_and(|it| it == "--depth") && words.len() > 2 {
        depth = words[2].parse().map_err(|_| wrong_words())?;
        words.drain(1..3);
    }
    let command = words.first().cloned().unwrap_or_default();
    let front = if matches!(&*command, "show" | "rewrite") {
        2
    } else {
        1
    };
    let word = words.get(front - 1).cloned().ok_or_else(wrong_words)?;
    if command == "show" {
        refuse_bad_path(&word)?;
    }
    let files: Vec<Vec<u8>> = words[front..]
        .iter()
        .map(std::fs::read)
        .collect::<Result<_, _>>()?;
    let tables: Vec<&[u8]> = files.iter().flat_map(|it| cut(it)).collect();
    refuse_bad_table(&tables, depth)?;
    Ok(match &*command {
        "list" => Machine::load(&tables, depth)?
            .text()
            .as_bytes()
            .to_vec()
            .into(),
        "typed" => {
            let machine = Machine::load(&tables, depth)?;
            let lines: String = machine.objects().map(typed_line).collect();
            lines.into_bytes().into()
        }
        "records" => records(&tables, depth)?.into(),
        "show" => show(&tables, depth, &word)?.into(),
        "check" => checked(&tables, depth)?,
        "rewrite" => {
            std::fs::write(word, rewrite(&tables, depth)?.concat())?;
            Vec::new().into()
        }
        _ => return Err(wrong_words()),
    })
}

fn main() -> ExitCode {
    match run(std::env::args().skip(1).collect()) {
        Ok(output) => {
            let mut out = std::io::stdout().lock();
            if out.write_all(&output.text).is_err() {
                return ExitCode::FAILURE;
            }
            ExitCode::from(output.status)
        }
        Err(Failure(line, status)) => {
            eprintln!("acpins: {line}");
            ExitCode::from(status)
        }
    }
}
