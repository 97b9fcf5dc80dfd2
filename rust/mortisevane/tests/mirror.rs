//! The handshake, by docs/start-up.md and by S8.4.2.

use mortisevane::{Mirror, Refusal};

/// The rows of docs/start-up.md: the packet, the register after it, and whether the decoder is talking then.
fn start_up() -> Vec<(u32, u32, bool)> {
    let number = |cell: &str| u32::from_str_radix(cell, 16).expect("it is a hexadecimal number");
    let lines = include_str!("../../../docs/start-up.md").lines().filter(|line| line.starts_with("| "));
    // Of its two tables the second goes on where the first ends, after a heading of its own.
    let rows = lines.filter(|line| !line.starts_with("| Packet"));
    rows.map(|row| row.split('|').map(str::trim).collect::<Vec<_>>())
        .map(|cells| (number(cells[1]), number(cells[3]), cells[4] == "yes"))
        .collect()
}

#[test]
fn the_start_up_packet_by_packet() {
    let rows = start_up();
    assert_eq!(rows.len(), 20);
    let mut mirror = Mirror::reset(rows[0].0).unwrap();
    assert_eq!((mirror.register, mirror.is_talking()), (rows[0].1, rows[0].2));
    for (packet, register, talking) in &rows[1..] {
        mirror.step(*packet).unwrap();
        assert_eq!((mirror.register, mirror.is_talking()), (*register, *talking), "after {packet:08X}");
    }
}

#[test]
fn the_start_up_as_one_run() {
    let rows = start_up();
    let packets: Vec<u32> = rows.iter().map(|row| row.0).collect();
    let (last, before) = packets[1..].split_last().unwrap();
    let mut mirror = Mirror::reset(packets[0]).unwrap();
    mirror.run(before).unwrap();
    assert_eq!(mirror.closing(), Ok(*last));
    mirror.run(&[*last]).unwrap();
    assert!(mirror.is_talking());
    let talking = mirror;
    mirror.run(&[]).unwrap();
    assert_eq!(mirror, talking);
}

#[test]
fn case_9() {
    let mut mirror = Mirror::reset(0xFF00_0106).unwrap();
    mirror.run(&[0x0100_0010, 0x0340_0000]).unwrap();
    assert_eq!(mirror.register, 0x400116);
}

#[test]
fn a_special_packet_ends_the_talking_alone() {
    let mut mirror = Mirror { register: 0x123456, talking: 1 };
    // Any checksum is ignored while the decoder talks.
    mirror.step(0).unwrap();
    assert!(mirror.is_talking());
    mirror.step(0x1CFF_FFFF).unwrap();
    assert_eq!((mirror.register, mirror.is_talking()), (0x123456, false));
}

#[test]
fn what_is_refused() {
    assert_eq!(Mirror::reset(0x0100_0106), Err(Refusal::Packet));
    let unsound = Mirror { register: 0x100_0000, talking: 0 };
    let mut mirror = unsound;
    assert_eq!(mirror.step(0x0200_0001), Err(Refusal::State));
    assert_eq!(mirror.run(&[0x0200_0001]), Err(Refusal::State));
    assert_eq!(mirror.closing(), Err(Refusal::State));
    assert_eq!(mirror, unsound);
}
