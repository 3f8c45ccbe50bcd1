//! Save states: a keyboard of the sample layout is saved when it has tested itself. Then somebody types h, and this prints
//! what happened and what is inside. A second keyboard is loaded of the save, and the same calls print the same.
//! rustc --edition 2021 -L dist -l static=kbd48 examples/embed_saved.rs && ./embed_saved
#[path = "../c/kbd48.rs"]
mod kbd48;

use kbd48::{Error, Keyboard};
use std::fmt::Write;

/// The cell that has the last byte which the keyboard sent (docs/FIRMWARE.md).
const LAST: u8 = 76;

const KINDS: [&str; 20] = [
    "port", "read", "word", "beep", "overrun", "lights", "taken", "taken_none", "status", "output", "pulse", "broke",
    "pause", "resume", "print", "boot", "sys_make", "sys_break", "sent", "given",
];

/// What happened since this was last asked, and what is inside now.
fn report(keyboard: &mut Keyboard) -> Result<String, Box<dyn std::error::Error>> {
    let mut text = String::new();
    while let Some(item) = keyboard.next_said()? {
        writeln!(text, "{} {} {:04X}", item.cycle, KINDS[item.kind as usize], item.value)?;
    }
    let (cycle, inside, cell) = (keyboard.cycle(), keyboard.processor(), keyboard.cell(LAST)?);
    writeln!(text, "cycle {cycle}: counter {:03X}, accumulator {:02X}, cell {LAST} {cell:02X}", inside.counter, inside.a)?;
    Ok(text)
}

fn type_h(keyboard: &mut Keyboard) -> Result<String, Box<dyn std::error::Error>> {
    let h = Keyboard::sample_place_of("h")?;
    for down in [true, false] {
        keyboard.key(h, down)?;
        keyboard.run(20_000, false)?;
    }
    report(keyboard)
}

fn main() -> Result<(), Box<dyn std::error::Error>> {
    let mut keyboard = Keyboard::of_sample()?;
    keyboard.bios(true)?;
    keyboard.run(160_000, false)?;
    print!("{}", report(&mut keyboard)?);
    let mut saved = keyboard.save();
    let first = type_h(&mut keyboard)?;
    print!("saved\n{first}");
    let mut loaded = Keyboard::of_saved(&saved)?;
    let second = type_h(&mut loaded)?;
    print!("loaded\n{second}");
    saved[7] += 1;
    println!("of another version: {}", if Keyboard::of_saved(&saved).err() == Some(Error::OtherVersion) { "refused" } else { "taken" });
    assert_eq!(first, second);
    Ok(())
}
