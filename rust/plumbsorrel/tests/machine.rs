//! The safe interface on document 01's whole example, code 28 4, and on damaged images.

use plumbsorrel::{write, End, Header, Machine, Ran, Refusal, BLOCK, CODE, LAYOUT_VERSION};

const ONE_DEVICE: Header = Header { devices: 1, variables: 0 };

fn example() -> Vec<u8> {
    write(ONE_DEVICE, &[28, 4]).expect("a good header")
}

#[test]
fn the_example_is_written_and_loaded() {
    let image = example();
    let check = |block: usize| u16::from_le_bytes([image[block * BLOCK + 510], image[block * BLOCK + 511]]);
    assert_eq!((image.len(), check(0), check(1)), (1024, 65_531, 65_502));
    let machine = Machine::load(&image).expect("a good image");
    assert_eq!(machine.code(), [28, 4]);
    assert_eq!((machine.state().len(), machine.common().len(), machine.private().len()), (822, 2048, 20_480));
    assert_eq!((LAYOUT_VERSION, &machine.state()[820..]), (2, &[0, 0][..]));
    assert_eq!((machine.is_sound(), machine.stop(), machine.seconds()), (true, None, 0));
}

#[test]
fn the_example_ends() {
    let mut machine = Machine::load(&example()).expect("a good image");
    assert_eq!(machine.step(), Ok(Ran { end: End::Budget, count: 1 }));
    assert_eq!(machine.step(), Ok(Ran { end: End::Idle, count: 0 }));
    assert_eq!(machine.run(0), Ok(Ran { end: End::Budget, count: 0 }));
    assert_eq!((machine.tick(), machine.bell()), (Ok(()), Ok(())));
    assert_eq!(machine.done(0, 0, 0), Err(Refusal::Device));
    assert_eq!(machine.record(0), Err(Refusal::Device));
}

#[test]
fn damaged_images_are_refused() {
    let refusal = |image: &[u8]| Machine::load(image).err();
    assert_eq!(refusal(&[]), Some(Refusal::Length));
    assert_eq!(refusal(&example()[..1023]), Some(Refusal::Length));
    let mut damaged = example();
    damaged[700] ^= 1;
    assert_eq!(refusal(&damaged), Some(Refusal::Block(1)));
    assert_eq!(refusal(&example()[..512]), Some(Refusal::Count));
}

#[test]
fn headers_out_of_range_are_not_written() {
    let refusal = |devices, variables, words| write(Header { devices, variables }, &vec![5; words]).err();
    assert_eq!(refusal(32, 0, 1), Some(Refusal::Header));
    assert_eq!(refusal(0, 1025, 1), Some(Refusal::Header));
    assert_eq!([0, CODE + 1, 65_536, 65_537].map(|words| refusal(0, 0, words)), [Some(Refusal::Header); 4]);
    assert_eq!(write(Header { devices: 31, variables: 1024 }, &[5; CODE]).map(|image| image.len()), Ok(65 * BLOCK));
}
