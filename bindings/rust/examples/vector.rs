//! Plays a capture of the repository's vectors to a querier at 10.0.0.9, and prints what is sent:
//! `vector FILE`, a little-endian classic capture of IGMP over Ethernet.

use mquerier::{igmp_line, Answer, Config, Igmp, Link, Workspace};
use std::net::Ipv4Addr;

fn print_queries(now: u64, answer: &Answer<Igmp>) {
    for query in answer.queries() {
        println!("{now} send {} {}", Ipv4Addr::from(query.destination), igmp_line(query.message, &mut [0; 8192]));
    }
}

/// Returns a number of four bytes at a place.
fn number(data: &[u8], at: usize) -> usize {
    u32::from_le_bytes(data[at..at + 4].try_into().unwrap()) as usize
}

fn main() -> Result<(), Box<dyn std::error::Error>> {
    let data = std::fs::read(std::env::args().nth(1).ok_or("usage: vector FILE")?)?;
    let config = Config::<Igmp>::new(Ipv4Addr::new(10, 0, 0, 9));
    let (mut link, mut workspace) = (Link::new(&config, 0)?, Workspace::new(&config)?);
    let mut queries = vec![0; config.outlet_bytes(1480)];

    let (mut at, mut begin) = (24, None); // the header of the file has 24 bytes, that of a record 16
    while at < data.len() {
        let stamp = number(&data, at) as u64 * 1000 + number(&data, at + 4) as u64 / 1000;
        let now = stamp - *begin.get_or_insert(stamp);
        let packet = &data[at + 16 + 14..at + 16 + number(&data, at + 8)]; // without the Ethernet header
        at += 16 + number(&data, at + 8);

        while let Some(due) = link.next_deadline().filter(|&due| due < now) {
            print_queries(due, &link.tick(&mut workspace, due, &mut queries)?);
        }
        let (header, length) = (usize::from(packet[0] & 15) * 4, usize::from(packet[2]) << 8 | usize::from(packet[3]));
        let source: [u8; 4] = packet[12..16].try_into()?;
        print_queries(now, &link.receive(&mut workspace, source, &packet[header..length], now, &mut queries)?);
    }
    Ok(())
}
