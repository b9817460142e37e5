//! A link that is told on standard input what to do, for a test that drives it: see `bindings/rust/tests/beside`.
//!
//! `make igmp|mld OWN V..`, with the variables in the order of the header; `tick NOW`, at the next deadline; `receive NOW SOURCE
//! DESTINATION HOPS ALERT BODY`, with addresses and bodies in hexadecimal after a `-`; `end NOW`. It prints `make`, and lines as those
//! of `mquerier replay --changes`.

use mquerier::{Answer, Config, Envelope, Family, Group, Igmp, Link, Mld, Source, Workspace};
use std::fmt::Write;
use std::io::{BufRead, Write as _};

fn number(word: &str) -> u64 {
    word.parse().unwrap()
}

fn bytes(word: &str) -> Vec<u8> {
    (1..word.len()).step_by(2).map(|at| u8::from_str_radix(&word[at..at + 2], 16).unwrap()).collect()
}

/// Returns an address of so many bytes in hexadecimal.
fn address<F: Family>(word: &str) -> F::Address {
    F::Address::try_from(&bytes(word)).ok().unwrap()
}

fn shown<F: Family>(address: F::Address) -> String {
    F::Ip::from(address).to_string()
}

struct Player<F: Family> {
    link: Link<'static, F>,
    workspace: Workspace<'static, F>,
    room: Vec<u8>,
    now: u64,
}

impl<F: Family> Player<F> {
    fn made(words: &[&str]) -> Self {
        let v: Vec<u32> = words[1..].iter().map(|it| number(it) as u32).collect();
        let config = Config::<F>::new(address::<F>(words[0]));
        let config = config.robustness(v[0]).query_interval(v[1]).response_interval(v[2]).last_member_interval(v[3]);
        let config = config.groups(v[4]).group_sources(v[5]).sources(v[6]).scheduled(v[7]).source_specific(v[8] != 0);
        let (link, workspace) = (Link::new(&config, 0).unwrap(), Workspace::new(&config).unwrap());
        Player { link, workspace, room: vec![0; config.outlet_bytes(65535)], now: 0 }
    }

    fn told(&mut self, words: &[&str]) -> String {
        let mut room = std::mem::take(&mut self.room);
        let text = match words[0] {
            "end" => self.end(number(words[1])),
            verb => {
                self.now = self.now.max(number(words[1]));
                let answer = match verb {
                    "tick" if self.link.next_deadline() != Some(self.now) => {
                        panic!("the deadline is another one: {words:?}")
                    }
                    "tick" => self.link.tick(&mut self.workspace, number(words[1]), &mut room).unwrap(),
                    _ => self.receive(&words[1..], &mut room),
                };
                self.answered(&answer, verb == "tick")
            }
        };
        self.room = room;
        text
    }

    fn receive<'q>(&mut self, words: &[&str], room: &'q mut [u8]) -> Answer<'q, F> {
        let (source, destination) = (address::<F>(words[1]), address::<F>(words[2]));
        let envelope = Envelope { source, destination, hop_limit: number(words[3]) as u8, alert: words[4] == "1" };
        self.link.receive(&mut self.workspace, envelope, &bytes(words[5]), number(words[0]), room).unwrap()
    }

    /// The queries of an answer, what became of the datagram, and the groups that changed.
    fn answered(&self, answer: &Answer<F>, is_tick: bool) -> String {
        let mut text = String::new();
        for query in answer.queries() {
            let message: String = query.message.iter().map(|it| format!("{it:02x}")).collect();
            writeln!(text, "{} send {} {message}", self.now, shown::<F>(query.destination)).unwrap();
        }
        match answer.dropped {
            Some(reason) => writeln!(text, "dropped {}", reason as u32).unwrap(),
            None if is_tick => (),
            None => writeln!(text, "taken {} {} {}", answer.applied, answer.ignored, answer.refused).unwrap(),
        }
        for group in self.workspace.changed() {
            let filter = self.link.group(group).map_or("none".into(), |it| filter(&it));
            writeln!(text, "{} change {} {filter}", self.now, shown::<F>(group)).unwrap();
        }
        text
    }

    fn end(&self, now: u64) -> String {
        let role = if self.link.is_querier() { "querier" } else { "other" };
        let mut text = format!("end {now} {role}\n");
        assert_eq!(self.link.is_querier(), self.link.other_querier().is_none());
        for (group, sources) in self.link.groups() {
            let mode = group.deadline().map_or("include".into(), |until| format!("exclude {until}"));
            write!(text, "group {} {mode}", shown::<F>(group.address())).unwrap();
            for it in sources {
                let address = shown::<F>(it.address());
                text += &it.deadline().map_or(format!(" !{address}"), |until| format!(" {address}={until}"));
            }
            text += &group.v1().map_or(String::new(), |until| format!(" v1 {until}"));
            text += &group.v2().map_or(String::new(), |until| format!(" v2 {until}"));
            text.push('\n');
        }
        let c = self.link.counts();
        writeln!(
            text,
            "counts received {} dropped {} applied {} ignored {} refused {} sent {} unsent {}",
            c.received, c.dropped, c.applied, c.ignored, c.refused, c.sent, c.unsent
        )
        .unwrap();
        text
    }
}

/// What is forwarded of a group, as a line has it.
fn filter<F: Family>((group, sources): &(Group<F>, Vec<Source<F>>)) -> String {
    let is_exclude = group.deadline().is_some();
    let (word, mark) = if is_exclude { ("exclude", " !") } else { ("include", " ") };
    let named = sources.iter().filter(|it| it.deadline().is_none() == is_exclude);
    word.to_string() + &named.map(|it| format!("{mark}{}", shown::<F>(it.address()))).collect::<String>()
}

fn main() {
    let (mut igmp, mut mld): (Option<Player<Igmp>>, Option<Player<Mld>>) = (None, None);
    let mut out = std::io::BufWriter::new(std::io::stdout().lock());
    for line in std::io::stdin().lock().lines() {
        let line = line.unwrap();
        let words: Vec<&str> = line.split(' ').collect();
        let text = match (words[0], &mut igmp, &mut mld) {
            ("make", ..) => {
                let is_igmp = words[1] == "igmp";
                igmp = is_igmp.then(|| Player::made(&words[2..]));
                mld = (!is_igmp).then(|| Player::made(&words[2..]));
                "make\n".into()
            }
            (_, Some(it), _) => it.told(&words),
            (_, _, Some(it)) => it.told(&words),
            _ => panic!("no link is made"),
        };
        out.write_all(text.as_bytes()).unwrap();
    }
}
