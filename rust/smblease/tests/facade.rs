//! What stands round the proved modules: conversions, accessors, and each call of the server, the client's cache and the manager.
use smblease::client::{Answer, Client, Command};
use smblease::manager::{Ask, Change, ClientNo, CreateAsk, Decision, Extent, FileNo, ImportError, Tag};
use smblease::server::{Out, Server};
use smblease::world::{Judge, Setup, Verdict};
use smblease::{
    Access, BreakTimers, Bytes, Content, FileId, LeaseKey, LeaseState, Manager, Order, OutOfMemory, Request, Rise, Rules, Share,
    wire,
};

const KEY: LeaseKey = LeaseKey([7; 16]);
const FILE: FileNo = FileNo(1);

fn is_shared<T: Send + Sync>() {}

#[test]
fn all_may_go_to_other_threads() {
    is_shared::<Manager>();
    is_shared::<BreakTimers>();
    is_shared::<Client>();
    is_shared::<Server>();
    is_shared::<Judge>();
    is_shared::<Setup>();
    is_shared::<smblease::client::SharedBytes>();
}

#[test]
fn values_come_and_go_as_rusts_own() -> Result<(), Box<dyn std::error::Error>> {
    assert_eq!(Vec::from(Bytes::from(b"abc".to_vec())), b"abc");
    assert_eq!(Bytes::try_from(b"abc".as_slice())?.as_slice(), b"abc");
    assert_eq!(Content::try_from(b"abc".to_vec())?.bytes(), b"abc");
    assert!(Content::try_from(vec![0; smblease::FILE_LIMIT + 1]).is_err());
    let all = LeaseState::READ_CACHING | LeaseState::WRITE_CACHING | LeaseState::HANDLE_CACHING;
    assert_eq!(all, LeaseState::from_wire(7));
    let rules = [Rules::by_client_as_free(), Rules::by_client_whole(), Rules::by_key_as_free(), Rules::by_key_whole()];
    assert_eq!(rules[0], Rules::profile());
    assert_eq!(rules.map(|rules| rules.order), [Order::ByClient, Order::ByClient, Order::ByKey, Order::ByKey]);
    assert_eq!(rules.map(|rules| rules.rise), [Rise::AsFree, Rise::Whole, Rise::AsFree, Rise::Whole]);
    Ok(())
}

fn open(lease: Option<(LeaseKey, LeaseState)>, durable: bool) -> Ask {
    let ask = CreateAsk { lease, durable, reconnect: None };
    Ask::Create { file: FILE, access: Access::ReadWrite, share: Share::ReadWrite, ask }
}

#[test]
fn a_managers_calls() -> Result<(), OutOfMemory> {
    let (one, two, all) = (ClientNo(1), ClientNo(2), LeaseState::from_wire(7));
    let mut manager = Manager::with_files(Rules::by_key_whole(), FILE);
    assert_eq!((manager.files(), manager.rules()), (FILE, Rules::by_key_whole()));
    assert!(manager.ask(one, Tag(1), open(None, false))?.is_empty());
    manager.join(one)?;
    manager.join(two)?;
    let opened = manager.ask(one, Tag(1), open(Some((KEY, all)), true))?[0];
    assert_eq!((opened.client(), opened.tag()), (Some(one), Some(Tag(1))));
    let Decision::Opened { file_id, answer, .. } = opened else { panic!("{opened:?}") };
    assert_eq!(wire::CreateAnswer::from(answer), wire::CreateAnswer { lease: Some((KEY, all, false)), durable: true });
    assert!(manager.has_open(file_id) && manager.is_connected(one) && manager.open_count() == 1);
    assert_eq!(manager.opens()?.map(|one| one.file_id).collect::<Vec<_>>(), [file_id]);
    assert_eq!(manager.allowed(two, None, FILE, all), LeaseState::from_wire(3));
    // Another client's open breaks the lease, and is taken back; its timer then ends the first one's.
    let decisions = manager.ask(two, Tag(9), open(None, false))?.to_vec();
    let [Decision::Breaks { notice, .. }, Decision::Waits { .. }] = decisions[..] else { panic!("{decisions:?}") };
    assert_eq!((decisions[0].client(), decisions[0].tag(), decisions[1].tag()), (Some(one), None, Some(Tag(9))));
    let message = wire::Notification::from(notice);
    assert_eq!((message.ack_required, message.key, message.current, message.new), (true, KEY, all, LeaseState::from_wire(3)));
    assert!(manager.is_breaking(one, KEY) && manager.is_waiting(FILE, two, Tag(9)));
    assert_eq!(manager.withdraw(FILE, two, Tag(9))?, [Decision::Withdrawn { client: two, tag: Tag(9) }]);
    assert_eq!(manager.acknowledge_malformed(two)?[0].client(), Some(two));
    assert_eq!(manager.expire(one, KEY)?, [Decision::Ended { file_id }]);
    assert_eq!((manager.decisions()[0].client(), manager.decisions()[0].tag(), manager.open_count()), (None, None, 0));
    Ok(())
}

#[test]
fn a_manager_keeps_a_durable_open() -> Result<(), OutOfMemory> {
    let (one, all) = (ClientNo(1), LeaseState::from_wire(7));
    let mut manager = Manager::new(Rules::profile());
    manager.join(one)?;
    manager.ask(one, Tag(1), open(Some((KEY, all)), true))?;
    assert_eq!(manager.cut(one)?, [Decision::LeftBehind { file_id: FileId(1) }]);
    assert_eq!((manager.kept(one, FILE), manager.has_left_behind(FileId(1))), (Some(FileId(1)), true));
    assert_eq!(manager.scavenge(FileId(1))?, [Decision::Ended { file_id: FileId(1) }]);
    Ok(())
}

// One of two sessions of a client goes, with an open and a request that waits.
#[test]
fn a_manager_comes_back_after_a_restart() -> Result<(), Box<dyn std::error::Error>> {
    let (one, key) = (ClientNo(1), LeaseKey([7; 16]));
    let mut manager = Manager::new(Rules::by_key_whole());
    manager.join(one)?;
    manager.ask(one, Tag(1), open(Some((key, LeaseState::from_wire(3))), true))?;
    let kept = manager.export()?;
    let mut again = Manager::import(Rules::by_key_whole(), FileNo(u64::MAX), &kept)?;
    assert!(again.has_left_behind(FileId(1)) && !again.is_connected(one));
    assert_eq!(again.lease(one, key).state, LeaseState::from_wire(3));
    assert_eq!(again.scavenge(FileId(1))?, [Decision::Ended { file_id: FileId(1) }]);
    let none = Manager::import(Rules::by_key_whole(), FileNo(0), &kept);
    assert_eq!(none.err(), Some(ImportError::Unlawful));
    Ok(())
}

#[test]
fn a_client_leaves_a_part() -> Result<(), OutOfMemory> {
    let (one, two, other) = (ClientNo(1), ClientNo(2), FileNo(FILE.0 + 1));
    let mut manager = Manager::new(Rules::profile());
    manager.join(one)?;
    manager.join(two)?;
    manager.ask(two, Tag(1), open(Some((KEY, LeaseState::from_wire(7))), false))?;
    manager.ask(one, Tag(1), open(None, false))?;
    let nothing = CreateAsk { lease: None, durable: false, reconnect: None };
    let bare = Ask::Create { file: other, access: Access::Read, share: Share::Read, ask: nothing };
    let Decision::Opened { file_id, .. } = manager.ask(one, Tag(2), bare)?[0] else { panic!("{:?}", manager.decisions()) };
    assert_eq!(manager.waiting()?.map(|one| (one.file, one.client, one.tag)).collect::<Vec<_>>(), [(FILE, one, Tag(1))]);
    assert!(manager.may_read(file_id, one) && !manager.may_write(file_id, one) && !manager.may_read(file_id, two));
    assert_eq!(manager.leave(one, &[file_id], &[Tag(1)])?, [Decision::Ended { file_id }]);
    assert!(manager.is_connected(one) && !manager.is_waiting(FILE, one, Tag(1)) && !manager.has_open(file_id));
    Ok(())
}

#[test]
fn others_give_up_what_they_hold() -> Result<(), OutOfMemory> {
    let (one, two) = (ClientNo(1), ClientNo(2));
    let mut manager = Manager::new(Rules::profile());
    manager.join(one)?;
    manager.ask(one, Tag(1), open(Some((KEY, LeaseState::from_wire(7))), false))?;
    assert!(manager.is_given_up(one, Some(KEY), FILE, Extent::All) && !manager.is_given_up(two, None, FILE, Extent::All));
    let [Decision::Breaks { notice, .. }] = manager.give_up(two, None, FILE, Extent::All)? else { panic!("{:?}", manager.decisions()) };
    assert_eq!((notice.lowered, notice.ack_required), (LeaseState::from_wire(0), true));
    let leases = manager.leases()?.collect::<Vec<_>>();
    let [lease] = leases[..] else { panic!("{leases:?}") };
    assert_eq!((lease.client, lease.key, lease.file, lease.opens), (one, KEY, FILE, 1));
    assert_eq!((lease.state, lease.broken_to), (LeaseState::from_wire(7), Some(LeaseState::from_wire(0))));
    manager.acknowledge(one, KEY, LeaseState::from_wire(0))?;
    assert!(manager.is_given_up(two, None, FILE, Extent::All));
    Ok(())
}

fn change(client: ClientNo, tag: Tag, key: Option<LeaseKey>) -> Change {
    Change { client, tag, key, file: FILE, extent: Extent::All }
}

// A client's lease of all three caches, and a change that waits for it, of a number that never joins.
fn waiting_change() -> Result<Manager, OutOfMemory> {
    let (one, host) = (ClientNo(1), ClientNo(9));
    let mut manager = Manager::new(Rules::by_key_whole());
    manager.join(one)?;
    manager.ask(one, Tag(1), open(Some((KEY, LeaseState::from_wire(7))), false))?;
    let own = manager.change(change(one, Tag(2), Some(KEY)))?;
    assert_eq!(own, [Decision::GoesOn { client: one, tag: Tag(2) }]);
    let decisions = manager.change(change(host, Tag(7), None))?;
    let [Decision::Breaks { .. }, waits] = *decisions else { panic!("{decisions:?}") };
    assert_eq!(waits, Decision::Waits { client: host, tag: Tag(7) });
    assert_eq!(manager.changes(), [change(host, Tag(7), None)]);
    assert!(manager.is_waiting(FILE, host, Tag(7)) && !manager.is_waiting(FILE, one, Tag(7)));
    Ok(manager)
}

#[test]
fn a_change_goes_on_once_it_is_free() -> Result<(), OutOfMemory> {
    type End = fn(&mut Manager) -> Result<&[Decision], OutOfMemory>;
    let ends: [End; 5] = [
        |manager| manager.acknowledge(ClientNo(1), KEY, LeaseState::from_wire(0)),
        |manager| manager.ask(ClientNo(1), Tag(1), Ask::Close { fid: FileId(1) }),
        |manager| manager.cut(ClientNo(1)),
        |manager| manager.leave(ClientNo(1), &[FileId(1)], &[]),
        |manager| manager.expire(ClientNo(1), KEY),
    ];
    for end in ends {
        let mut manager = waiting_change()?;
        let decisions = end(&mut manager)?;
        let [_, goes_on] = *decisions else { panic!("{decisions:?}") };
        assert_eq!(goes_on, Decision::GoesOn { client: ClientNo(9), tag: Tag(7) });
        assert!(manager.changes().is_empty() && !manager.is_waiting(FILE, ClientNo(9), Tag(7)));
    }
    Ok(())
}

#[test]
fn a_change_is_taken_back_or_goes_with_its_client() -> Result<(), OutOfMemory> {
    let (one, host) = (ClientNo(1), ClientNo(9));
    let mut manager = waiting_change()?;
    assert!(manager.withdraw(FILE, one, Tag(7))?.is_empty());
    assert_eq!(manager.withdraw(FILE, host, Tag(7))?, [Decision::Withdrawn { client: host, tag: Tag(7) }]);
    assert!(manager.changes().is_empty());
    for (number, left) in [(1, 0), (2, 1), (3, 2)] {
        manager.change(change(host, Tag(number), None))?;
        assert_eq!(manager.changes().len(), 1 + left);
    }
    assert!(manager.leave(host, &[], &[Tag(1), Tag(3)])?.is_empty() && manager.changes() == [change(host, Tag(2), None)]);
    assert!(manager.cut(host)?.is_empty() && manager.changes().is_empty());
    assert_eq!(manager.acknowledge(one, KEY, LeaseState::from_wire(0))?.len(), 1);
    Ok(())
}

// What is granted while a change waits is broken for it at the next call about its file.
#[test]
fn a_lease_that_came_since_is_broken_too() -> Result<(), OutOfMemory> {
    type Call = fn(&mut Manager) -> Result<&[Decision], OutOfMemory>;
    let calls: [(Call, Call); 3] = [
        (|manager| manager.leave(ClientNo(3), &[FileId(2)], &[]), |manager| manager.scavenge(FileId(2))),
        (|manager| manager.ask(ClientNo(1), Tag(3), alone()), |manager| manager.withdraw(FILE, ClientNo(1), Tag(3))),
        (
            |manager| manager.acknowledge_malformed(ClientNo(1)),
            |manager| manager.give_up(ClientNo(2), Some(LeaseKey([2; 16])), FILE, Extent::Handles),
        ),
    ];
    for (before, call) in calls {
        let handles = LeaseState::from_wire(3);
        let mut manager = Manager::new(Rules::by_key_whole());
        for number in [1, 2, 3] {
            manager.join(ClientNo(number))?;
        }
        manager.ask(ClientNo(1), Tag(1), open(Some((LeaseKey([1; 16]), handles)), false))?;
        manager.ask(ClientNo(3), Tag(1), open(Some((LeaseKey([3; 16]), handles)), true))?;
        let key = Some(LeaseKey([3; 16]));
        let waiting = Change { client: ClientNo(3), tag: Tag(7), key, file: FILE, extent: Extent::Handles };
        assert!(matches!(*manager.change(waiting)?, [Decision::Breaks { .. }, Decision::Waits { .. }]));
        before(&mut manager)?;
        manager.ask(ClientNo(2), Tag(2), open(Some((LeaseKey([2; 16]), handles)), false))?;
        assert!(!manager.is_breaking(ClientNo(2), LeaseKey([2; 16])));
        let decisions = call(&mut manager)?;
        let [_, Decision::Breaks { client, .. }] = *decisions else { panic!("{decisions:?}") };
        assert_eq!((client, manager.changes()), (ClientNo(2), [waiting].as_slice()));
    }
    Ok(())
}

// An open that shares nothing.
fn alone() -> Ask {
    let ask = CreateAsk { lease: None, durable: false, reconnect: None };
    Ask::Create { file: FILE, access: Access::Read, share: Share::Nothing, ask }
}

#[test]
fn a_break_has_one_timer() -> Result<(), OutOfMemory> {
    let (one, two) = (ClientNo(1), ClientNo(2));
    let (mut manager, mut timers) = (Manager::new(Rules::profile()), BreakTimers::default());
    manager.join(one)?;
    manager.join(two)?;
    manager.ask(one, Tag(1), open(Some((KEY, LeaseState::from_wire(7))), false))?;
    let number = timers.note(&manager.ask(two, Tag(1), open(None, false))?[0])?.expect("a timer");
    assert_eq!((timers.run_out(number), timers.run_out(number)), (Some((one, KEY)), None));
    Ok(())
}

// A client opens and reads a file of a server, whose messages come at once; then it loses its connection.
#[test]
fn a_client_and_a_server() -> Result<(), Box<dyn std::error::Error>> {
    let (number, file) = (smblease::client::ClientNo(1), smblease::client::FileNo(1));
    let mut server = Server::new(Rules::profile(), vec![Content::try_from(b"abc".as_slice())?])?;
    let mut client = Client::new([1; 16], 1)?;
    server.join(number)?;
    client.connect()?;
    let want = LeaseState::from_wire(7);
    let opening = Command::Open { file, access: Access::ReadWrite, share: Share::ReadWrite, want, durable: false };
    let mut answers = Vec::new();
    for command in [opening, Command::Read { file }] {
        let turn = client.command(command)?;
        for request in turn.requests {
            for out in server.receive(number, request)? {
                if let Out::Sent(_, reply) = out {
                    answers.push(client.take(reply)?.answer);
                }
            }
        }
    }
    assert_eq!(answers, [Answer::Done, Answer::Bytes(Bytes::from(b"abc".to_vec()), false)]);
    assert_eq!((client.belief(file), server.content(file)), (want, Some(b"abc".as_slice())));
    assert!(server.is_connected(number) && !server.is_breaking(number, KEY) && server.kept(number, file).is_none());
    assert_eq!(server.allowed(number, None, file, want), LeaseState::from_wire(3));
    server.cut(number)?;
    client.notice()?;
    assert!(!server.is_connected(number) && client.belief(file).is_none() && !server.has_left_behind(FileId(1)));
    assert!(server.expire(number, KEY)?.is_empty() && server.scavenge(FileId(1))?.is_empty());
    assert!(server.receive(number, Request::Read { fid: FileId(1) })?.is_empty());
    assert_eq!(Judge::default().verdict(), Verdict::Safe);
    Ok(())
}

#[test]
fn contexts_are_read_back() -> Result<(), Box<dyn std::error::Error>> {
    let ask = wire::CreateAsk { lease: Some((KEY, LeaseState::from_wire(3))), durable: true, reconnect: None };
    assert_eq!(wire::read_create(&wire::create_ask(&ask)?)?, ask);
    let asked = CreateAsk::from(ask);
    assert_eq!((asked.lease, asked.durable, asked.reconnect), (ask.lease, true, None));
    let answer = wire::CreateAnswer { lease: Some((KEY, LeaseState::from_wire(3), true)), durable: true };
    assert_eq!(wire::read_create_reply(&wire::create_reply(&answer)?)?, answer);
    Ok(())
}
