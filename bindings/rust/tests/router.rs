//! A router in generic code: one function serves links of both families.

use mquerier::{Answer, Config, Envelope, Family, Igmp, IntoAddress, Link, Mld, Workspace};

/// A datagram of a host: its time, its envelope, its body.
type Heard<F> = (u64, Envelope<<F as Family>::Address>, Vec<u8>);

/// What a router sends: the time, and the query's destination.
type Sent = (u64, String);

struct Router<F: Family> {
    link: Link<'static, F>,
    workspace: Workspace<'static, F>,
    room: Vec<u8>,
    sent: Vec<Sent>,
}

impl<F: Family> Router<F> {
    fn new(own: impl IntoAddress<F>) -> Self {
        let config = Config::<F>::new(own);
        let (link, workspace) = (Link::new(&config, 0).unwrap(), Workspace::new(&config).unwrap());
        Router { link, workspace, room: vec![0; config.outlet_bytes(1480)], sent: vec![] }
    }

    fn send(sent: &mut Vec<Sent>, now: u64, answer: &Answer<F>) {
        assert_eq!((answer.dropped, answer.unsent), (None, 0));
        sent.extend(answer.queries().map(|it| (now, F::Ip::from(it.destination).to_string())));
    }

    /// Ticks at each deadline before `end`.
    fn wait(&mut self, end: u64) {
        while let Some(now) = self.link.next_deadline().filter(|&it| it < end) {
            let answer = self.link.tick(&mut self.workspace, now, &mut self.room).unwrap();
            Self::send(&mut self.sent, now, &answer);
        }
    }

    fn hear(&mut self, (now, envelope, body): &Heard<F>) {
        self.wait(*now);
        let answer = self.link.receive(&mut self.workspace, envelope, body, *now, &mut self.room).unwrap();
        Self::send(&mut self.sent, *now, &answer);
    }
}

/// Returns what a router sends up to 3 s, and whether it forwards a group from the host at first, after each datagram, and at last.
fn played<F: Family>(own: impl IntoAddress<F>, heard: [Heard<F>; 2], group: F::Address) -> (Vec<Sent>, Vec<bool>) {
    let (mut router, source) = (Router::<F>::new(own), heard[0].1.source);
    let mut forwards = vec![router.link.forwards(group, source)];
    for it in &heard {
        router.hear(it);
        forwards.push(router.link.forwards(group, source));
    }
    router.wait(3001);
    forwards.push(router.link.forwards(group, source));
    (router.sent, forwards)
}

/// Returns a message with its checksum at 2, over it and the words of a pseudo-header.
fn summed(mut message: Vec<u8>, header: &[u8]) -> Vec<u8> {
    let words = |it: &[u8]| it.chunks(2).map(|it| u32::from(it[0]) << 8 | u32::from(it[1])).sum::<u32>();
    let mut sum = words(&message) + words(header);
    while sum > 0xffff {
        sum = (sum & 0xffff) + (sum >> 16);
    }
    message[2..4].copy_from_slice(&(!(sum as u16)).to_be_bytes());
    message
}

/// The queries of both families: a general one at 0; two for the group from the leave on, a second apart (RFC 3376 section 6.6.3.1).
fn wanted(everybody: &str, group: &str) -> Vec<Sent> {
    [(0, everybody), (900, group), (1900, group)].map(|(now, to)| (now, to.to_string())).into()
}

#[test]
fn a_router_of_igmp() {
    let group = [239, 1, 2, 3];
    let message = |kind: u8| summed([&[kind, 0, 0, 0][..], &group].concat(), &[]);
    let envelope = Envelope::from([10, 0, 0, 1]);
    let heard = [(500, envelope, message(0x16)), (900, envelope, message(0x17))];
    let (sent, forwards) = played::<Igmp>(std::net::Ipv4Addr::new(10, 0, 0, 9), heard, group);
    assert_eq!(sent, wanted("224.0.0.1", "239.1.2.3"));
    assert_eq!(forwards, [false, true, true, false]);
}

#[test]
fn a_router_of_mld() {
    let address = |text: &str| text.parse::<std::net::Ipv6Addr>().unwrap();
    let (host, group) = (address("fe80::1"), address("ff0e::1234").octets());
    let heard = |now, kind: u8, to: &str| {
        let envelope = Envelope { source: host, destination: address(to), hop_limit: 1, alert: true };
        let header = [&host.octets()[..], &address(to).octets(), &[0, 0, 0, 24, 0, 0, 0, 58]].concat();
        (now, envelope.into(), summed([&[kind, 0, 0, 0, 0, 0, 0, 0][..], &group].concat(), &header))
    };
    let heard = [heard(500, 131, "ff0e::1234"), heard(900, 132, "ff02::2")];
    let (sent, forwards) = played::<Mld>(address("fe80::9"), heard, group);
    assert_eq!(sent, wanted("ff02::1", "ff0e::1234"));
    assert_eq!(forwards, [false, true, true, false]);
}
