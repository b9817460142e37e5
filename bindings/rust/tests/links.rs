//! Links: what calls return, faults, memory, threads.

use mquerier::{
    Config, Counts, Dropped, Envelope, Fault, Group, Igmp, Link, Mld, Parsed, Refused, Source, Workspace, LATEST,
};
use std::net::{Ipv4Addr, Ipv6Addr};

const OWN: [u8; 4] = [10, 0, 0, 9];
const HOST: [u8; 4] = [10, 0, 0, 1];
const GROUP: [u8; 4] = [239, 1, 2, 3];
const JOIN: [u8; 8] = [0x16, 0, 0xf8, 0xfa, 239, 1, 2, 3];
/// IS_IN of 10.0.0.5, TO_EX {} for 239.1.2.4.
const REPORT: [u8; 28] =
    [0x22, 0, 0xea, 0xec, 0, 0, 0, 2, 4, 0, 0, 0, 239, 1, 2, 4, 3, 0, 0, 1, 239, 1, 2, 3, 10, 0, 0, 5];

fn made() -> (Link<'static, Igmp>, Workspace<'static, Igmp>) {
    let config = Config::<Igmp>::new(OWN);
    (Link::new(&config, 0).unwrap(), Workspace::new(&config).unwrap())
}

#[test]
fn groups_and_counts() {
    let (mut link, mut workspace) = made();
    let answer = link.receive(&mut workspace, HOST, &REPORT, 40, &mut []).unwrap();
    assert_eq!((answer.applied, answer.sent, answer.unsent), (2, 0, 1));
    assert!(workspace.changed().eq([GROUP, [239, 1, 2, 4]]));
    let all = link.groups();
    assert_eq!((all.len(), link.len()), (2, 2));
    let (group, sources) = link.group(GROUP).unwrap();
    assert_eq!((group.address(), group.deadline(), group.v1(), group.v2()), (GROUP, None, None, None));
    assert_eq!((sources[0].address(), sources[0].deadline()), ([10, 0, 0, 5], Some(260_040)));
    assert_eq!(link.group([239, 1, 2, 4]).unwrap().0.deadline(), Some(260_040));
    assert!(link.group([239, 1, 2, 5]).is_none());

    let (mut groups, mut sources) = ([Group::default(); 1], [Source::default(); 4]);
    assert_eq!(link.groups_into(0, &mut groups, &mut sources), (1, 1));
    assert_eq!(link.groups_into(1, &mut groups, &mut sources), (1, 0));
    assert_eq!(link.groups_into(2, &mut groups, &mut sources), (0, 0));
    assert_eq!(link.groups_into(usize::MAX, &mut groups, &mut []), (0, 0));
    assert_eq!(link.group_into(GROUP, &mut []).unwrap().sources(), 1);

    let answer = link.receive(&mut workspace, HOST, &JOIN[..7], 50, &mut []).unwrap();
    assert_eq!(answer.dropped, Some(Dropped::Checksum));
    let counts: Counts = link.counts();
    assert_eq!((counts.received, counts.dropped, counts.applied, counts.unsent), (2, 1, 2, 1));
    assert_eq!((counts.dropped_by(Dropped::Checksum), counts.dropped_by(Dropped::Other)), (1, 0));
    assert_eq!((counts.parsed(Parsed::Report), counts.refused_by(Refused::Long)), (1, 0));
}

#[test]
fn another_configuration() {
    let config = Config::<Igmp>::new(OWN).groups(10);
    let (mut link, mut workspace) = (Link::new(&config, 0).unwrap(), Workspace::new(&config).unwrap());
    assert_eq!(link.tick(&mut workspace, 0, &mut []).unwrap().unsent, 1);
    assert_eq!(link.receive(&mut workspace, HOST, &REPORT, 40, &mut []).unwrap().applied, 2);
    assert_eq!(link.configure(&config.query_interval(20)), Ok(()));
    assert_eq!(link.next_deadline(), Some(20_040));
    assert_eq!(link.configure(&config.groups(11)), Err(Fault::Memory));
    assert_eq!(link.configure(&config.groups(1)), Err(Fault::Held));
    assert_eq!(link.configure(&config.groups(0)), Err(Fault::Groups));
    assert_eq!(link.configure(&config.groups(2)), Ok(()));
    assert_eq!(link.group([239, 1, 2, 4]).unwrap().0.deadline(), Some(260_040));
}

#[test]
fn ranges_of_groups() {
    let config = Config::<Igmp>::new(OWN).deny([239, 1, 2, 4], 32);
    let (mut link, mut workspace) = (Link::new(&config, 0).unwrap(), Workspace::new(&config).unwrap());
    let answer = link.receive(&mut workspace, HOST, &REPORT, 40, &mut []).unwrap();
    assert_eq!((answer.applied, answer.ignored, link.counts().denied, link.len()), (1, 1, 1, 1));
    assert_eq!(link.configure(&config.without_ranges().allow([239, 1, 2, 4], 31)), Ok(()));
    let answer = link.receive(&mut workspace, HOST, &REPORT, 50, &mut []).unwrap();
    assert_eq!((answer.applied, answer.ignored, link.counts().denied, link.len()), (1, 1, 2, 2));

    let first = Config::<Igmp>::new(OWN).allow(Ipv4Addr::new(239, 1, 2, 3), 32).deny(Ipv4Addr::UNSPECIFIED, 0);
    assert_eq!(link.configure(&first), Ok(()));
    let answer = link.receive(&mut workspace, HOST, &REPORT, 60, &mut []).unwrap();
    assert_eq!((answer.applied, answer.ignored, link.counts().denied, link.len()), (1, 1, 3, 2));
}

#[test]
#[should_panic(expected = "at most 16 ranges")]
fn too_many_ranges() {
    let _ = (0..17).fold(Config::<Igmp>::new(OWN), |config, at| config.deny([239, at, 0, 0], 16));
}

#[test]
fn another_querier() {
    let (mut link, mut workspace) = made();
    let query = [0x11, 0x64, 0xec, 0x1e, 0, 0, 0, 0, 2, 125, 0, 0];
    assert!(link.is_querier() && link.other_querier().is_none());
    let answer = link.receive(&mut workspace, [10, 0, 0, 2], &query, 5, &mut []).unwrap();
    assert!(answer.dropped.is_none() && !link.is_querier());
    assert_eq!(link.other_querier(), Some(([10, 0, 0, 2], 255_005)));
}

#[test]
fn addresses_of_the_standard_library() {
    let (own, host, group) = (Ipv4Addr::from(OWN), Ipv4Addr::from(HOST), Ipv4Addr::from(GROUP));
    let config = Config::<Igmp>::new(own);
    let (mut link, mut workspace) = (Link::new(&config, 0).unwrap(), Workspace::new(&config).unwrap());
    assert_eq!(link.receive(&mut workspace, host, &JOIN, 0, &mut []).unwrap().applied, 1);
    let envelope = Envelope { source: host, destination: group, hop_limit: 1, alert: true };
    assert_eq!(link.receive(&mut workspace, envelope, &JOIN, 1, &mut []).unwrap().applied, 1);
    assert!(link.forwards(group, HOST) && link.group(group).is_some() && workspace.changed().next().is_none());

    let own: Ipv6Addr = "fe80::9".parse().unwrap();
    let config = Config::<Mld>::new(own);
    let (mut link, mut workspace) = (Link::new(&config, 0).unwrap(), Workspace::new(&config).unwrap());
    let envelope = Envelope { source: own, destination: own, hop_limit: 1, alert: true };
    assert_eq!(link.receive(&mut workspace, envelope, &[131], 0, &mut []).unwrap().dropped, Some(Dropped::Truncated));
    assert_eq!(mquerier::mld_line(own, own, &[131], &mut [0; 100]), "fault 1 truncated at 1");
}

#[test]
fn faults() {
    let good = Config::<Igmp>::new(OWN);
    for (config, fault) in [
        (good.robustness(0), Fault::Robustness),
        (good.query_interval(0), Fault::QueryInterval),
        (good.response_interval(125_000), Fault::ResponseInterval),
        (good.last_member_interval(99), Fault::LastMemberInterval),
        (good.last_member_query_count(8), Fault::LastMemberQueryCount),
        (good.groups(0), Fault::Groups),
        (good.group_sources(1025), Fault::GroupSources),
        (good.sources(u32::MAX), Fault::Sources),
        (good.scheduled(65536), Fault::Scheduled),
        (Config::new([0; 4]), Fault::OwnAddress),
    ] {
        assert_eq!(Link::new(&config, 0).unwrap_err(), fault);
        assert_eq!(Workspace::new(&config).unwrap_err(), fault);
        assert!(fault.to_string().len() > 20);
    }
    assert_eq!(Link::new(&good, LATEST + 1).unwrap_err(), Fault::Moment);
    assert_eq!(Link::init(&good, 0, &mut [0; 64]).unwrap_err(), Fault::Memory);
    assert_eq!(Workspace::init(&good, &mut []).unwrap_err(), Fault::Memory);
    let (mut link, mut workspace) = made();
    assert_eq!(link.tick(&mut workspace, LATEST + 1, &mut []).unwrap_err(), Fault::Moment);
    let mut small = Workspace::new(&good.groups(1)).unwrap();
    assert_eq!(link.receive(&mut small, HOST, &JOIN, 0, &mut []).unwrap_err(), Fault::Workspace);
    assert_eq!(link.counts(), Counts::default());
}

#[test]
fn any_length() {
    for length in [0, 1, 3, 7, 9, 1480, 65_535, 1 << 20] {
        let (mut link, mut workspace) = made();
        let answer = link.receive(&mut workspace, HOST, &vec![0; length], 0, &mut []).unwrap();
        let wanted = if length < 4 { Dropped::Truncated } else { Dropped::Checksum };
        assert_eq!(answer.dropped, Some(wanted), "{length}");
    }
}

/// The header, each run of white space as one space.
fn header() -> String {
    let folder = std::env::var("MQUERIER_LIB").unwrap_or(concat!(env!("CARGO_MANIFEST_DIR"), "/../../lib").into());
    spaced(&std::fs::read_to_string(folder + "/../include/mquerier.h").unwrap())
}

fn spaced(text: &str) -> String {
    text.split_whitespace().collect::<Vec<_>>().join(" ")
}

#[test]
fn texts_are_those_of_the_header() {
    let (header, quoted) = (header(), |it: String| format!("\"{it}\""));
    let texts = |name: &str| header[header.find(name).unwrap()..].split("};").next().unwrap().to_string();
    let (statuses, reasons) = (texts("mq_status_text"), texts("mq_dropped_text"));
    let mut at = 0;
    for fault in [
        Fault::Robustness,
        Fault::QueryInterval,
        Fault::ResponseInterval,
        Fault::LastMemberInterval,
        Fault::Groups,
        Fault::GroupSources,
        Fault::Sources,
        Fault::Scheduled,
        Fault::OwnAddress,
        Fault::Memory,
        Fault::Moment,
        Fault::Workspace,
        Fault::Held,
        Fault::LastMemberQueryCount,
    ] {
        at += statuses[at..].find(&quoted(fault.to_string())).expect("the header has the text, in this order");
    }
    at = 0;
    for reason in [
        Dropped::Truncated,
        Dropped::Checksum,
        Dropped::UnknownType,
        Dropped::QueryLength,
        Dropped::Source,
        Dropped::HopLimit,
        Dropped::NoAlert,
        Dropped::OwnOrZero,
        Dropped::Igmpv1Query,
        Dropped::Group,
    ] {
        at += reasons[at..].find(&quoted(reason.to_string())).expect("the header has the text, in this order");
    }
    assert_eq!((statuses.matches('"').count(), reasons.matches('"').count()), (2 * 15, 2 * 11));
}

/// What a comment of `// SAFETY:` quotes of the header, for each such comment of a file.
fn quoted(file: &str) -> Vec<Vec<String>> {
    let lines: Vec<&str> = file.lines().map(str::trim).collect();
    let begins = (0..lines.len()).filter(|&at| lines[at].starts_with("// SAFETY:"));
    let comment =
        |at: usize| lines[at..].iter().take_while(|it| it.starts_with("//")).map(|it| &it[2..]).collect::<String>();
    begins.map(|at| comment(at).split('"').skip(1).step_by(2).map(spaced).collect()).collect()
}

#[test]
fn each_unsafe_block_quotes_the_header() {
    let header = header();
    let mut blocks = 0;
    for file in std::fs::read_dir(concat!(env!("CARGO_MANIFEST_DIR"), "/src")).unwrap() {
        let text = std::fs::read_to_string(file.unwrap().path()).unwrap();
        let all = quoted(&text);
        assert_eq!(all.len(), text.matches("unsafe {").count() + text.matches("unsafe impl").count());
        for quotes in all {
            assert!(!quotes.is_empty());
            for it in quotes {
                assert!(header.contains(&it), "not in the header: {it}");
            }
            blocks += 1;
        }
    }
    assert!(blocks > 20);
}

#[test]
fn memory_of_any_beginning() {
    let config = Config::<Mld>::new([0xfe, 0x80, 0, 0, 0, 0, 0, 0, 0, 0, 0, 0, 0, 0, 0, 9])
        .groups(4)
        .sources(8)
        .group_sources(4);
    assert!(config.size() <= Mld::size(4, 8) && config.workspace_size() <= Mld::workspace_size(4, 4));
    for before in 0..17 {
        let (mut memory, mut work) = (vec![7; before + config.size()], vec![7; before + config.workspace_size()]);
        let mut link = Link::init(&config, 0, &mut memory[before..]).unwrap();
        let mut workspace = Workspace::init(&config, &mut work[before..]).unwrap();
        let mut queries = vec![0; config.outlet_bytes(1480)];
        let answer = link.tick(&mut workspace, 0, &mut queries).unwrap();
        assert_eq!(answer.queries().map(|it| it.message.len()).collect::<Vec<_>>(), [28]);
        let envelope = Envelope { source: [0; 16], destination: [0; 16], hop_limit: 1, alert: true };
        for length in 0..40 {
            let body = vec![131; length];
            assert!(link.receive(&mut workspace, &envelope, &body, 1, &mut queries).unwrap().dropped.is_some());
        }
    }
}

#[test]
fn lines() {
    let mut room = [0; 100];
    assert_eq!(mquerier::igmp_line(&JOIN, &mut room), "report v2 group 239.1.2.3");
    assert_eq!(mquerier::igmp_line(&JOIN, &mut room[..6]), "report");
    assert_eq!(mquerier::igmp_line(&[], &mut room), "fault 1 truncated at 0");
    assert_eq!(mquerier::mld_line([0; 16], [0; 16], &JOIN, &mut room), "fault 2 checksum");
}

#[test]
fn threads_with_a_link_each() {
    let played = |(mut link, mut workspace): (Link<Igmp>, Workspace<Igmp>)| {
        let (mut queries, mut sent) = ([0; 4096], vec![]);
        for now in (0..300_000).step_by(50) {
            let answer = link.receive(&mut workspace, HOST, &REPORT, now, &mut queries).unwrap();
            sent.extend(answer.queries().map(|it| (now, it.destination, it.message.to_vec())));
        }
        sent
    };
    let alone = played(made());
    let mut threads = vec![];
    for _ in 0..8 {
        let here = made();
        threads.push(std::thread::spawn(move || played(here)));
    }
    for it in threads {
        assert_eq!(it.join().unwrap(), alone);
    }
    assert!(alone.len() > 2);
}
