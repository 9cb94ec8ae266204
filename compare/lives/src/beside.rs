//! Both servers, given the same and compared after every call and every answer.

use std::time::Duration;

use oracle::lives::{self, NetcodeServer, ServerAuthentication, ServerConfig};

use crate::call::{Call, Start, Turn};
use crate::counts::Counts;
use crate::expect::{expect, Expected, Step};
use crate::hear::Outcome;
use crate::host::{self, Kind};
use crate::labels;
use crate::misuse;
use crate::ours::{Ours, SetUp};
use crate::poke::Poke;
use crate::queries;
use crate::sample::{Sample, Tables};
use crate::shadow::Shadow;
use crate::sys::Held;
use compare::same;

mod compare;

pub struct Pair {
    pub rust: NetcodeServer,
    ours: Ours,
    shadow: Shadow,
    /// What the output, the datagram and the held bytes of ours have to be.
    out: Vec<u8>,
    datagram: Vec<u8>,
    held: Held,
    set: SetUp,
    steps: u64,
}

impl Pair {
    pub fn begin(start: &Start, counts: &mut Counts, sample: &mut Sample) -> Result<Self, String> {
        chacha20poly1305::seed(start.seed);
        let rust = rust_server(start);
        let kept = lives::kept(&rust);
        let set = SetUp {
            secs: start.secs,
            nanos: u64::from(start.nanos),
            max_clients: start.max_clients,
            protocol: start.protocol,
            secure: start.secure,
            connect_key: start.connect_key,
            challenge_key: kept.challenge_key,
        };
        let mut ours = Ours::new(start.max_clients, start.pending, &start.public, start.out);
        misuse::at_set_up(&mut ours, &set, counts)?;
        let shadow = Shadow::new(&ours);
        if ours.set_up(&set) != 0 {
            return Err("ours refuses a set-up".into());
        }
        let pair = Self {
            out: ours.out.clone(),
            datagram: Vec::new(),
            held: ours.held,
            rust,
            ours,
            shadow,
            set,
            steps: 0,
        };
        pair.compare_tables(true)?;
        pair.compare_record(&pair.rust, true)?;
        sample.set_up(start, &pair.set, &pair.ours.public, 0, Some(&pair.shadow));
        Ok(pair)
    }

    /// One call and all its answers; what it comes to.
    pub fn turn(
        &mut self,
        turn: &Turn,
        counts: &mut Counts,
        sample: &mut Sample,
    ) -> Result<Outcome, String> {
        counts.calls += 1;
        match &turn.call {
            Call::Query { id } => self.query(*id, counts, sample),
            Call::Poke(poke) => self.poke(poke, sample),
            Call::Misuse => {
                misuse::at_rest(&mut self.ours, &self.rust, counts)?;
                sample.at_rest(&self.rust, &self.ours, &self.shadow);
                self.compare_tables(true).map(|()| Outcome::Nothing)
            }
            _ => self.serve(turn, counts, sample),
        }
    }

    /// Every word of the tables, once more.
    pub fn end(&self) -> Result<(), String> {
        self.compare_tables(true)
    }

    fn serve(
        &mut self,
        turn: &Turn,
        counts: &mut Counts,
        sample: &mut Sample,
    ) -> Result<Outcome, String> {
        let pre = lives::copy(&self.rust);
        let expected = expect(&pre, &mut self.rust, turn)?;
        if let Some(sort) = &expected.beyond {
            counts.go_beyond(sort.clone());
        }
        labels::count(turn, &expected, &pre, &self.rust, counts);
        if turn.tight {
            self.lend_tightly(&turn.call, &expected.steps[0]);
        }
        self.ask(&turn.call);
        sample.call(&turn.call);
        for (at, step) in expected.steps.iter().enumerate() {
            counts.answers += u64::from(at > 0);
            if at + 1 == expected.steps.len() {
                self.part(&turn.call, &expected)?;
            }
            self.compare(step)?;
            sample.step(step, &self.shadow);
            if step.state.is_some() {
                self.answer(turn, at, &expected, counts, sample)?;
            }
        }
        self.ours.lent.out = self.ours.out.len();
        self.compare_payload(&expected.outcome)?;
        Ok(expected.outcome)
    }

    /// A call for a client needs no more output than its packet.
    fn lend_tightly(&mut self, call: &Call, first: &Step) {
        let seals = first.words[0] == 2 && host::kind_of(&first.words) == Kind::Seal;
        if seals && !matches!(call, Call::Datagram { .. }) {
            self.ours.lent.out = first.words[13] as usize;
        }
    }

    /// Where a client takes its leave by a datagram.
    fn part(&mut self, call: &Call, expected: &Expected) -> Result<(), String> {
        let (Call::Datagram { .. }, Outcome::Ended { to, .. }) = (call, &expected.outcome) else {
            return Ok(());
        };
        let nonce = &expected.steps[0].told[36..44];
        let sequence = u64::from_le_bytes(nonce.try_into().expect("eight bytes"));
        self.shadow.part(*to, sequence, self.rust.current_time())
    }

    /// The call itself, on ours.
    fn ask(&mut self, call: &Call) {
        let ours = &mut self.ours;
        match call {
            Call::Update { secs, nanos } => ours.update(*secs, *nanos),
            Call::SetMaxClients(limit) => ours.set_max_clients(*limit),
            Call::Datagram { from, bytes } => {
                ours.receive(bytes);
                self.datagram.clone_from(bytes);
                ours.process_packet(&(*from).into());
            }
            Call::Payload { id, bytes } => ours.generate_payload_packet(*id, bytes),
            Call::UpdateClient { id } => ours.update_client(*id),
            Call::Disconnect { id } => ours.disconnect(*id),
            Call::Query { .. } | Call::Poke(_) | Call::Misuse => {}
        }
    }

    /// The host's answer to the ask of this number.
    fn answer(
        &mut self,
        turn: &Turn,
        at: usize,
        expected: &Expected,
        counts: &mut Counts,
        sample: &mut Sample,
    ) -> Result<(), String> {
        let kind = host::kind_of(&self.ours.answer);
        if turn.misuse {
            misuse::at_ask(&mut self.ours, kind, counts)?;
            sample.at_ask(kind, &turn.call, &self.ours, &self.shadow);
            let state = expected.steps[at].state.as_ref().expect("an ask has one");
            self.compare_queries(state, 1)?;
            self.compare_record(state, false)?;
        }
        // The answer's words were compared, and misuse wrote over them.
        self.ours.answer = expected.steps[at].words;
        self.ours.told = expected.steps[at].told;
        let said = host::work(&mut self.ours, turn.no == Some(at));
        match kind {
            Kind::Seal => self.out.clone_from(&self.ours.out),
            Kind::Open | Kind::Token => self.datagram.clone_from(&self.ours.datagram),
        }
        if at == 0 && kind == Kind::Open && said.granted {
            same(
                "the opened datagram",
                expected.opened.as_ref(),
                Some(&self.datagram),
            )?;
        }
        if said.granted {
            self.hold(kind, &expected.steps[at], &said, &expected.steps[at + 1]);
        }
        sample.answer(kind, &said, &self.ours);
        host::answer(&mut self.ours, kind, &said);
        Ok(())
    }

    fn query(
        &mut self,
        id: u64,
        counts: &mut Counts,
        sample: &mut Sample,
    ) -> Result<Outcome, String> {
        let panicked = self.compare_queries(&self.rust, id)?;
        if panicked {
            counts.go_beyond("a time later than now, asked how long ago: panics".into());
        }
        let rust = queries::of_rust(&self.rust, id).0;
        counts.reach(if rust.connected {
            "queries: a client"
        } else {
            "queries: no such client"
        });
        sample.query(id, &rust);
        self.compare_record(&self.rust, true)?;
        self.compare_tables(false)?;
        Ok(Outcome::Nothing)
    }

    fn poke(&mut self, poke: &Poke, sample: &mut Sample) -> Result<Outcome, String> {
        let before = sample.is_on().then(|| Tables::of(&self.ours));
        poke.apply(&mut self.rust);
        self.shadow.follow(&self.rust);
        if let Poke::Mark { slot, mark } = poke {
            self.shadow.mark_slot(*slot, *mark);
        }
        self.shadow.hand_over(&mut self.ours);
        self.ours.record = self.record_of(&self.rust);
        if let Some(before) = before {
            sample.altered(poke, &before, &self.ours);
        }
        Ok(Outcome::Nothing)
    }
}

fn rust_server(start: &Start) -> NetcodeServer {
    NetcodeServer::new(ServerConfig {
        current_time: Duration::new(start.secs, start.nanos),
        max_clients: start.max_clients,
        protocol_id: start.protocol,
        public_addresses: start.public.clone(),
        authentication: if start.secure {
            ServerAuthentication::Secure {
                private_key: start.connect_key,
            }
        } else {
            ServerAuthentication::Unsecure
        },
    })
}
