// Made by tools/plain_rust from crates/capture_texts/src/report.rt. Changes belong there.

use std::prelude::Vec;

use crate::proved::capture_judge::{Chain, Level, Placing, Step, judge_placing, levels_after};
use crate::proved::capture_texts::capture::{Capture, Kept};
use crate::proved::capture_texts::finding::{
    Belief, BreakFinding, Clash, ClientFinding, ClientName, Counts, EpochFinding, FileFinding, FilePlace, Judged, LeaseFinding,
    Report,
};
use crate::proved::capture_texts::line::Moment;
use crate::proved::capture_walk::{
    Acknowledged, Break, Event, Index, LeaseTold, Loss, Misnumbered, Place, chains_on, leases_told, tables_on,
};
use smblease::proved::lease_state::{Bytes, Memory};
use std::alloc::Global;

fn copy_of(alloc: Global, bytes: &[u8]) -> Result<Bytes, Memory> {
    Ok(Bytes::new(Vec::from_slice(alloc, bytes)?))
}

// The moment of the line that has a position.
fn moment_at(position: u64, kept: &[Kept]) -> Result<Option<Moment>, Memory> {
    match kept.get(position.saturating_sub(1) as usize / 2) {
        Some(line) => Ok(Some(line.moment.try_copy()?)),
        None => Ok(None),
    }
}

// The moment of a position, if it isn't that before all lines.
fn moment_since(position: u64, kept: &[Kept]) -> Result<Option<Moment>, Memory> {
    if position == 0 {
        return Ok(None);
    }
    moment_at(position, kept)
}

// Where a client acknowledged a break, if it did.
fn moment_given(given: Option<Acknowledged>, kept: &[Kept]) -> Result<Option<Moment>, Memory> {
    match given {
        Some(given) => moment_at(given.last, kept),
        None => Ok(None),
    }
}

// What a step's client caches after it.
fn belief_at(chains: &[Chain], step: Step, level: Level, kept: &[Kept]) -> Result<Belief, Memory> {
    let client = match chains.get(step.chain) {
        Some(chain) => chain.client,
        None => 0,
    };
    Ok(Belief { client, level, position: step.position, moment: moment_since(step.position, kept)? })
}

// What clients cache, step by step.
fn beliefs_by(alloc: Global, chains: &[Chain], steps: &[Step], kept: &[Kept]) -> Result<Vec<Belief>, Memory> {
    let levels = levels_after(alloc, chains, steps)?;
    let mut beliefs = Vec::new(alloc);
    for (index, step) in steps.iter().enumerate() {
        beliefs.push(belief_at(chains, *step, levels[index], kept)?)?;
    }
    Ok(beliefs)
}

// What is decided of chains, and what clients cache by them.
fn judge(alloc: Global, chains: &[Chain], kept: &[Kept]) -> Result<(Judged, Vec<Belief>), Memory> {
    if chains.is_empty() {
        return Ok((Judged::NoClient, Vec::new(alloc)));
    }
    match judge_placing(alloc, chains)? {
        Placing::Contradictory => Ok((Judged::Contradictory, Vec::new(alloc))),
        Placing::Clean(steps) => Ok((Judged::Safe, beliefs_by(alloc, chains, steps.as_slice(), kept)?)),
        Placing::Unsafe(charge) => {
            let beliefs = beliefs_by(alloc, chains, charge.steps.as_slice(), kept)?;
            let clash = Clash { position: charge.position, moment: moment_at(charge.position, kept)? };
            Ok((Judged::Unsafe(clash), beliefs))
        }
        Placing::TooMany => Ok((Judged::TooMany, Vec::new(alloc))),
    }
}

// What isn't safe, if one of these isn't.
fn less_sure(believed: Judged, held: Judged) -> Judged {
    if believed.is_safe() { held } else { believed }
}

// What is decided of a file, by what is of the clients' chains and of the server's.
fn joined(believed: Judged, held: Judged) -> Judged {
    if believed.is_unsafe() {
        return believed;
    }
    match held {
        Judged::Unsafe(clash) => Judged::Granted(clash),
        other => less_sure(believed, other),
    }
}

// What is told of a file: what its clients cache, or where the server alone is charged what it held for them.
fn beliefs_told(believed: &Judged, held: &Judged, cached: Vec<Belief>, granted: Vec<Belief>) -> Vec<Belief> {
    if held.is_unsafe() && !believed.is_unsafe() { granted } else { cached }
}

// What is decided of a file, by what its clients cached and by what the server held for them.
fn judge_both(alloc: Global, chains: &[Chain], tables: &[Chain], kept: &[Kept]) -> Result<(Judged, Vec<Belief>), Memory> {
    let (believed, cached) = judge(alloc, chains, kept)?;
    let (held, granted) = judge(alloc, tables, kept)?;
    let beliefs = beliefs_told(&believed, &held, cached, granted);
    Ok((joined(believed, held), beliefs))
}

// The place of the loss of a client.
fn place_of(found: &[Loss], client: u64) -> Option<usize> {
    found.iter().position(|loss| loss.client == client)
}

// Of two losses of a client that from which on less is known.
fn greater(loss: Loss, one: Loss) -> Loss {
    if loss.since < one.since { loss } else { one }
}

// Takes note of a loss: of each client that from which on least is known.
fn note_loss(found: &mut Vec<Loss>, loss: Loss) -> Result<(), Memory> {
    match place_of(found, loss.client) {
        Some(place) => found[place] = greater(loss, found[place]),
        None => found.push(loss)?,
    }
    Ok(())
}

fn losses_in(alloc: Global, events: &[Event]) -> Result<Vec<Loss>, Memory> {
    let mut found: Vec<Loss> = Vec::new(alloc);
    for event in events {
        if let Event::Lost(loss) = event {
            note_loss(&mut found, *loss)?;
        }
    }
    Ok(found)
}

// The epochs that don't follow on.
fn epochs_in(alloc: Global, events: &[Event]) -> Result<Vec<Misnumbered>, Memory> {
    let mut found: Vec<Misnumbered> = Vec::new(alloc);
    for event in events {
        if let Event::Misnumbered(one) = event {
            found.push(*one)?;
        }
    }
    Ok(found)
}

impl Capture {
    // The connection of what is seen with a number.
    fn connection_of(&self, number: u64) -> Option<u64> {
        let place = self.kept.partition_point(|line| line.number <= number);
        if place == 0 {
            return None;
        }
        Some(self.kept[place - 1].connection)
    }

    fn client_name(&self, alloc: Global, number: u64) -> Result<ClientName, Memory> {
        let address = match self.connection_of(number) {
            Some(connection) => self.connections.client(connection),
            None => &[],
        };
        let address = copy_of(alloc, address)?;
        Ok(ClientName { number, address })
    }

    fn file_place(&self, alloc: Global, place: Place<'_>) -> Result<FilePlace, Memory> {
        Ok(FilePlace {
            server: copy_of(alloc, self.servers.address(place.server))?,
            path: copy_of(alloc, place.path)?,
            name: copy_of(alloc, place.name)?,
        })
    }

    fn clients_of(&self, alloc: Global, chains: &[Chain]) -> Result<Vec<ClientName>, Memory> {
        let mut clients = Vec::new(alloc);
        for chain in chains {
            clients.push(self.client_name(alloc, chain.client)?)?;
        }
        Ok(clients)
    }

    fn break_finding(&self, broken: Option<Break>, given: Option<Acknowledged>) -> Result<Option<BreakFinding>, Memory> {
        let Some(one) = broken else {
            return Ok(None);
        };
        Ok(Some(BreakFinding {
            state: one.state,
            moment: moment_at(one.sent.position, &self.kept)?,
            wants_acknowledgment: one.acknowledged,
            acknowledged: moment_given(given, &self.kept)?,
        }))
    }

    fn lease_finding(&self, alloc: Global, told: &LeaseTold) -> Result<LeaseFinding, Memory> {
        let grant = told.grant;
        Ok(LeaseFinding {
            client: self.client_name(alloc, grant.lease.client)?,
            guid: self.walking.walk.guid_of(grant.lease.client),
            key: grant.lease.key,
            state: grant.state,
            granted: moment_at(grant.sent.position, &self.kept)?,
            connection: copy_of(alloc, self.connections.client(grant.sent.connection))?,
            broken: self.break_finding(told.broken, told.acknowledged)?,
        })
    }

    // What was said of the leases on a file up to a position.
    fn leases_until(&self, alloc: Global, index: &Index, file: u64, position: u64) -> Result<Vec<LeaseFinding>, Memory> {
        let mut findings = Vec::new(alloc);
        for told in &leases_told(alloc, file, position, self.walking.walk.events(), index)? {
            findings.push(self.lease_finding(alloc, told)?)?;
        }
        Ok(findings)
    }

    // The same where something clashes.
    fn lease_findings(&self, alloc: Global, index: &Index, file: u64, until: Option<u64>) -> Result<Vec<LeaseFinding>, Memory> {
        match until {
            Some(position) => self.leases_until(alloc, index, file, position),
            None => Ok(Vec::new(alloc)),
        }
    }

    // What is found of a file.
    fn file_finding(&self, alloc: Global, index: &Index, file: u64) -> Result<FileFinding, Memory> {
        let chains = chains_on(alloc, file, self.walking.walk.events(), index)?;
        let tables = tables_on(alloc, file, self.walking.walk.events(), index)?;
        let place = match self.walking.walk.place_of(file) {
            Some(place) => Some(self.file_place(alloc, place)?),
            None => None,
        };
        let (judged, beliefs) = judge_both(alloc, &chains, &tables, &self.kept)?;
        let leases = self.lease_findings(alloc, index, file, judged.until())?;
        Ok(FileFinding { file, place, judged, clients: self.clients_of(alloc, &chains)?, beliefs, leases })
    }

    fn findings_by(&self, alloc: Global, index: &Index) -> Result<Vec<FileFinding>, Memory> {
        let mut findings = Vec::new(alloc);
        for file in index.files() {
            findings.push(self.file_finding(alloc, index, *file)?)?;
        }
        Ok(findings)
    }

    fn file_findings(&self, alloc: Global) -> Result<Vec<FileFinding>, Memory> {
        let index = Index::of(alloc, self.walking.walk.events())?;
        self.findings_by(alloc, &index)
    }

    fn client_finding(&self, alloc: Global, loss: Loss) -> Result<ClientFinding, Memory> {
        Ok(ClientFinding {
            client: self.client_name(alloc, loss.client)?,
            since: moment_since(loss.since, &self.kept)?,
            reason: loss.reason,
        })
    }

    fn client_findings(&self, alloc: Global) -> Result<Vec<ClientFinding>, Memory> {
        let mut findings = Vec::new(alloc);
        for loss in &losses_in(alloc, self.walking.walk.events())? {
            findings.push(self.client_finding(alloc, *loss)?)?;
        }
        Ok(findings)
    }

    fn epoch_finding(&self, alloc: Global, one: Misnumbered) -> Result<EpochFinding, Memory> {
        Ok(EpochFinding {
            client: self.client_name(alloc, one.lease.client)?,
            moment: moment_at(one.position, &self.kept)?,
            before: one.before,
            epoch: one.epoch,
        })
    }

    fn epoch_findings(&self, alloc: Global) -> Result<Vec<EpochFinding>, Memory> {
        let mut findings = Vec::new(alloc);
        for one in &epochs_in(alloc, self.walking.walk.events())? {
            findings.push(self.epoch_finding(alloc, *one)?)?;
        }
        Ok(findings)
    }

    fn frames(&self) -> usize {
        self.kept.iter().filter(|line| line.is_frame).count()
    }

    fn unread(&self) -> usize {
        self.kept.iter().filter(|line| !line.is_read).count()
    }

    fn counts(&self) -> Counts {
        Counts { connections: self.connections.len(), frames: self.frames(), unread: self.unread() }
    }

    /// What the lines so far show: a finding for each file on which leases are granted, the clients that aren't judged, and the
    /// epochs that don't follow on. Each file is judged here, once, which is a search; the verdict goes by what it found.
    ///
    /// # Errors
    ///
    /// `Memory` where there is none left.
    pub fn report(&self, alloc: Global) -> Result<Report, Memory> {
        Ok(Report {
            files: self.file_findings(alloc)?,
            clients: self.client_findings(alloc)?,
            epochs: self.epoch_findings(alloc)?,
            counts: self.counts(),
        })
    }
}
