//! Prints the devices of a machine with their ids, resources and conditions: devices DSDT SSDT..
use acpins::{Entry, Fault, Resource, Survey};
use std::error::Error;

fn print_device(device: Entry<'_>) {
    print!("{}", device.path());
    if let Some(id) = device.below("_HID").and_then(|it| it.value()?.id()) {
        print!("  {id}");
    }
    let resources = device.below("_CRS").and_then(|it| it.value());
    for resource in resources.iter().flat_map(|it| it.resources()) {
        match resource {
            Resource::Irq(first, count) => print!("  irq {first:X}+{count:X}"),
            Resource::Dma(mask) => print!("  dma {mask:X}+0"),
            Resource::Io(base, size) => print!("  io {base:X}+{size:X}"),
            Resource::Memory(base, size) => print!("  memory {base:X}+{size:X}"),
            Resource::Bus(base, size) => print!("  bus {base:X}+{size:X}"),
            _ => print!("  other 0+0"),
        }
    }
    if !device.is_certain() {
        print!("  ?");
    }
    for literal in device.condition() {
        print!(" {}", literal.text());
    }
    println!();
}

fn main() -> Result<(), Box<dyn Error>> {
    let files: Vec<Vec<u8>> = std::env::args()
        .skip(1)
        .map(std::fs::read)
        .collect::<Result<_, _>>()?;
    let tables: Vec<&[u8]> = files.iter().map(Vec::as_slice).collect();
    let survey = Survey::read(&tables, 1024).map_err(|it: Fault| it.to_string())?;
    for device in survey.entries().filter(|it| it.kind_name() == "Device") {
        print_device(device);
    }
    Ok(())
}
