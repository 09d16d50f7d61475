//! A run of a server and two clients by a list of events, and the verdict on its record; then on the same record with stale data.
use smblease::client::{ClientNo, Command, FileNo, SharedBytes};
use smblease::world::{Event, Fact, Rule, Setup, Verdict, judge, run};
use smblease::{Access, Bytes, Content, LeaseState, Patch, Share};
use std::error::Error;

const FILE: FileNo = FileNo(1);

fn open() -> Command {
    let want = LeaseState::from_wire(3);
    Command::Open { file: FILE, access: Access::ReadWrite, share: Share::ReadWrite, want, durable: false }
}

fn record() -> Result<Vec<Fact>, Box<dyn Error>> {
    let (one, two) = (ClientNo(1), ClientNo(2));
    let setup = Setup::new(vec![Content::try_from(b"abc".as_slice())?], vec![[1; 16], [2; 16]]);
    let patch = Patch { offset: 0, bytes: Bytes::from(b"X".to_vec()) };
    let mut events = vec![Event::Connect(one), Event::Connect(two)];
    for client in [one, two] {
        events.extend([Event::App(client, open()), Event::ServerTakes(client), Event::ClientTakes(client)]);
    }
    // The first client fills its cache; the second one writes, and the first one takes the break and reads again.
    events.extend([Event::App(one, Command::Read { file: FILE }), Event::ServerTakes(one), Event::ClientTakes(one)]);
    events.extend([Event::App(two, Command::Write { file: FILE, patch }), Event::ServerTakes(two), Event::ClientTakes(one)]);
    events.push(Event::App(one, Command::Read { file: FILE }));
    Ok(run(&setup, &events)?)
}

fn main() -> Result<(), Box<dyn Error>> {
    let mut record = record()?;
    assert!(record.iter().any(|fact| matches!(fact, Fact::Changed(..))));
    println!("{} facts: {:?}", record.len(), judge(&record)?);
    assert_eq!(judge(&record)?, Verdict::Safe);
    // The second client reads what the file never was.
    let stale = SharedBytes::new(Bytes::from(b"Zbc".to_vec()))?;
    record.push(Fact::CachedRead(ClientNo(2), FILE, stale));
    let place = record.len() as u64;
    println!("{} facts: {:?}", record.len(), judge(&record)?);
    assert_eq!(judge(&record)?, Verdict::Unsafe { place, rule: Rule::FreshCachedReads });
    Ok(())
}

#[test]
fn a_run_is_safe_and_stale_data_arent() -> Result<(), Box<dyn Error>> {
    main()
}
