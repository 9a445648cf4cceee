//! What the crate tells of a survey.
use acpins::*;

/// A table with this code, of revision 2.
fn dsdt(code: &[u8]) -> Vec<u8> {
    let mut table = b"DSDT".to_vec();
    table.extend((36 + code.len() as u32).to_le_bytes());
    table.push(2);
    table.resize(36, 0);
    table.extend(code);
    let sum = table
        .iter()
        .fold(0, |sum: u8, byte| sum.wrapping_add(*byte));
    table[9] = sum.wrapping_neg();
    table
}

/// If (OSYS) { Device (DEV0) { Name (_HID, EISAID ("PNP0A03")) } } Else { Device (DEV0) { } }, a buffer
/// of resources, and a region whose offset is computed.
const CODE: &[u8] =
    b"\x08OSYS\x00\xA0\x16OSYS\x5B\x82\x0FDEV0\x08_HID\x0C\x41\xD0\x0A\x03\xA1\x08\x5B\x82\x05DEV0\
    \x08CRS0\x11\x0B\x0A\x08\x22\x02\x00\x47\x01\x60\x00\x60\x5B\x80REG0\x00OSYS\x0A\x10";

#[test]
fn entries_have_conditions() {
    let table = dsdt(CODE);
    let survey = Survey::read(&[&table], 64).expect("it is read");
    let devices: Vec<Entry> = survey.at("\\DEV0").collect();
    let texts: Vec<&str> = devices.iter().map(|it| it.condition()[0].text()).collect();
    assert_eq!(texts, ["if(OSYS)", "not(OSYS)"]);
    assert_eq!(devices[1].condition()[0].kind(), LiteralKind::Not);
    assert!(devices
        .iter()
        .all(|it| it.kind_name() == "Device" && !it.is_certain()));
    assert!(survey.at("\\OSYS").all(|it| it.is_certain()));
    let id = devices[0].below("_HID").and_then(|it| it.value()?.id());
    assert_eq!(id.as_deref(), Some("PNP0A03"));
    assert_eq!(survey.problems().count(), 0);
}

#[test]
fn values_are_read() {
    let table = dsdt(CODE);
    let survey = Survey::read(&[&table], 64).expect("it is read");
    let region = survey.at("\\REG0").next().expect("it is there");
    assert_eq!(region.region(), Some((0, None, Some(16))));
    let resources = survey.at("\\CRS0").next().and_then(|it| it.value());
    let found: Vec<Resource> = resources.iter().flat_map(|it| it.resources()).collect();
    assert_eq!(found[0], Resource::Irq(1, 1));
}

#[test]
fn texts_are_those_of_the_program() {
    let table = dsdt(b"\x08NAM0\x01\x3E");
    let survey = Survey::read(&[&table], 64).expect("it is read");
    let list = survey.text(Text::List).expect("it is made");
    assert!(list.contains("\\NAM0 Name One\n") && list.ends_with('\n'));
    let lines: String = survey
        .entries()
        .map(|it| format!("{}\n", it.line()))
        .collect();
    let found: String = survey
        .problems()
        .map(|it| format!("{}\n", it.line()))
        .collect();
    assert_eq!(lines + &found, list);
    assert_eq!(
        survey.problems().next().map(|it| it.reason()),
        Some(('K', 2))
    );
    assert!(survey
        .text(Text::Json)
        .expect("it is made")
        .starts_with('{'));
    assert!(matches!(
        survey.text(Text::Show("\\NONE")),
        Err(Fault::NoObject)
    ));
    assert!(matches!(
        survey.text(Text::Show("none")),
        Err(Fault::BadPath)
    ));
    assert!(matches!(Survey::read(&[], 64), Err(Fault::NoTable)));
    assert!(matches!(Survey::read(&[&table], 0), Err(Fault::BadDepth)));
}
