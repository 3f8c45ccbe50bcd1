//! The Rust file: a keyboard is opened, run, copied and dropped, and what fails is an error.
mod kbd48;

use kbd48::{Error, Keyboard};

/// The bytes of a queue of four edges are loaded as this queue; others are refused, and it stays.
fn loaded_queue(keyboard: &mut Keyboard, bytes: &mut [u8; kbd48::SAVED_KEYS]) -> Result<(), Error> {
    keyboard.power_on(0)?;
    assert_eq!(keyboard.queued(), 0);
    keyboard.load_queue(bytes)?;
    assert_eq!((keyboard.queued(), keyboard.save_queue() == *bytes), (4, true));
    bytes[7] += 1;
    assert_eq!(keyboard.load_queue(bytes), Err(Error::OtherVersion));
    assert_eq!(keyboard.load_queue(&bytes[1..]), Err(Error::BadSize));
    assert_eq!(keyboard.queued(), 4);
    Ok(())
}

fn main() -> Result<(), Box<dyn std::error::Error>> {
    let mut first = Keyboard::of_layout(&std::fs::read("examples/us84.toml")?)?;
    assert!(first.run(400_000, true)?.rose && first.interrupt() && first.rises() == 1);
    assert_eq!((first.registers().status, first.registers().output), (0x15, 0xaa));
    let mut copy = first.copied()?;
    assert_eq!(first.read60()?, 0xaa);
    assert!(!first.interrupt() && copy.interrupt());
    assert_eq!(copy.read60()?, 0xaa);
    assert_eq!(copy.cycle(), first.cycle());
    assert_eq!(copy.next_said()?.map(|it| (it.kind, it.value)), Some((18, 0xaa)));
    let mut saved = copy.save();
    let loaded = Keyboard::of_saved(&saved)?;
    assert!(loaded.save() == saved && loaded.cycle() == copy.cycle());
    saved[0] = 0;
    assert_eq!(Keyboard::of_saved(&saved).err(), Some(Error::NotSaved));
    assert_eq!(Keyboard::of_saved(&saved[1..]).err(), Some(Error::BadSize));
    let said = copy.next_said()?.expect("the read was said");
    assert_eq!((said.kind, said.value, copy.next_said()?), (1, 0xaa, None));
    copy.key(34, true)?;
    assert!(copy.run(400_000, true)?.rose);
    assert_eq!(std::thread::spawn(move || copy.read60()).join().unwrap()?, 0x23);
    let (h, shift) = (Keyboard::sample_place_of("h")?, Keyboard::place_of(&std::fs::read("examples/us84.toml")?, "lshift")?);
    assert_eq!((h, shift, Keyboard::sample_place_of("no key").err()), (34, 41, Some(Error::NoSuchKey)));
    let mut sample = Keyboard::of_sample()?;
    assert!(sample.run(400_000, true)?.rose && sample.read60()? == 0xaa);
    sample.queue_key(shift, true)?;
    sample.queue_key(h, true)?;
    sample.queue_key(h, true)?;
    sample.release_all();
    assert_eq!(sample.copied()?.queued(), 4);
    first.set_queue(sample.queue());
    assert_eq!(first.queued(), 4);
    let mut queue = sample.save_queue();
    loaded_queue(&mut first.copied()?, &mut queue)?;
    for byte in [0x2a, 0x23, 0xa3, 0xaa] {
        assert!(sample.run_keys(400_000, true)?.rose);
        assert_eq!(sample.read60()?, byte);
    }
    assert_eq!((sample.queued(), sample.run_keys(4000, false)?.rises), (0, 0));
    let mut help = kbd48::Help::new(true, true);
    assert_eq!([help.write(0x60, 0xf0), help.write(0x60, 0x02), help.write(0x60, 0xff)], [0xf0, 0xef, 0xff]);
    assert_eq!(help, kbd48::Help { seabios: true, bochs: true, parameter: false, last: 0xff });
    assert!(help.read(0xfa) && !help.read(0xfa));

    let mut ready = Keyboard::ready_of_layout(&std::fs::read("examples/us84.toml")?)?;
    assert!(ready.interrupt() && ready.lost() == 0);
    assert_eq!((ready.flip(10), ready.flip(9), ready.pulls().1), (Err(Error::NoSuchBit), Ok(()), 1));
    assert_eq!(ready.run_to(0, 0, 400_000, 1)?.1, 0);
    assert_eq!(ready.run_to(8, 7, 4096, u64::MAX)?.1, 8);
    assert_eq!((first.wires(), first.waiting(), first.column(0), first.status()?), ((false, true), (0, 0), Ok(0xff), 0x14));
    assert_eq!((first.column(12), kbd48::version()), (Err(Error::NoSuchPlace), 10000));
    assert!(Keyboard::ready_of_sample()?.interrupt());
    ready.queue_key(h, true)?;
    ready.power_on(0xff)?;
    assert!(ready.queued() == 0 && ready.cycle() < 4099 && ready.run(400_000, true)?.rose && ready.read60()? == 0xaa);
    assert_eq!(first.key(96, true), Err(Error::NoSuchPlace));
    assert_eq!(Keyboard::of_layout(b"format = ").err(), Some(Error::BadText { position: 0, number: 1 }));
    Ok(())
}
