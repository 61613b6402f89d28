use super::scripted_node::{
    learned, refused, refusing, reply, reply_of, row, unhex, Ask, ScriptedNode, Step, FLAG_OFF,
    SEEN_NOTHING, SESSION, STORED,
};
use crate::{connect, connect_timeout, Cause, Client, Error, Fault, Refusal, Row, Snapshot};
use std::net::{SocketAddr, TcpListener};
use std::time::Duration;

const READ_FLAG: &str = "06";
const COLLECT: &str = "02";
const STORE_A: &str = "010161";
const STORE_B: &str = "010162";
const ADD_NINE: &str = "0700000009";

const SHORT: Duration = Duration::from_millis(50);
const LONG: Duration = Duration::from_secs(5);

/// A node of whose session the last request is 4, and what it says from request 6 on.
fn node(steps: impl IntoIterator<Item = Step>) -> ScriptedNode {
    ScriptedNode::new(learned(4).into_iter().chain(steps))
}

fn client(node: &ScriptedNode) -> Client {
    connect_timeout(node.address, SESSION, LONG).expect("a client")
}

/// What a node was asked behind the two asks by which a client learns that the last request is 4.
fn asked(node: &ScriptedNode) -> Vec<Ask> {
    let mut asks = node.asks();
    let rest = asks.split_off(2);
    assert_eq!(asks, asks_of(&[(0, READ_FLAG), (5, READ_FLAG)]));
    rest
}

fn asks_of(asks: &[(u64, &str)]) -> Vec<Ask> {
    asks.iter()
        .map(|(request, command)| (*request, (*command).to_string()))
        .collect()
}

/// What a client asks by collects under these numbers.
fn collects_of(requests: &[u64]) -> Vec<Ask> {
    let asks: Vec<(u64, &str)> = requests.iter().map(|request| (*request, COLLECT)).collect();
    asks_of(&asks)
}

/// Views that differ.
fn views() -> [String; 3] {
    let other = row(2, 1, "b");
    [
        format!("020001{}", row(1, 1, "a")),
        format!("020002{}{other}", row(1, 1, "a")),
        format!("020002{}{other}", row(1, 2, "c")),
    ]
}

/// A reply with each view to requests from the first one on.
fn replies(first: u64, views: &[impl AsRef<str>]) -> Vec<Step> {
    let requests = first..;
    requests
        .zip(views)
        .map(|(request, view)| reply(request, view.as_ref()))
        .collect()
}

fn is_late(called: Result<(), Error>) -> bool {
    match called {
        Err(Error::DeadlineExceeded { is_pending, .. }) => is_pending,
        other => panic!("{other:?}, not a deadline that has passed"),
    }
}

fn is_refused(called: &Result<(), Error>, why: Refusal) -> bool {
    matches!(called, Err(Error::Refused { refusal, carried: 0 }) if *refusal == why)
}

#[test]
fn requests_are_numbered_from_the_last_one() {
    let node = node([reply(6, STORED), reply(7, SEEN_NOTHING)]);
    let mut client = client(&node);
    client.store("a").expect("stored");
    assert_eq!(client.collect().expect("rows"), []);
    assert_eq!(asked(&node), asks_of(&[(6, STORE_A), (7, COLLECT)]));
}

#[test]
fn a_request_of_an_earlier_client_takes_no_write_with_it() {
    let node = ScriptedNode::new([
        refused(0, Refusal::Stale, 4),
        reply(5, STORED),
        refused(0, Refusal::Stale, 5),
        reply(6, FLAG_OFF),
        reply(7, STORED),
    ]);
    client(&node).store("b").expect("stored");
    let rest = asks_of(&[(0, READ_FLAG), (6, READ_FLAG), (7, STORE_B)]);
    assert_eq!(asked(&node), rest);
}

#[test]
fn a_number_that_another_command_has_taken_is_left_to_it() {
    let node = ScriptedNode::new([
        refused(0, Refusal::Stale, 4),
        refused(5, Refusal::Stale, 5),
        refused(6, Refusal::Stale, 8),
        reply(9, FLAG_OFF),
        reply(10, STORED),
    ]);
    client(&node).store("b").expect("stored");
    let rest = asks_of(&[(6, READ_FLAG), (9, READ_FLAG), (10, STORE_B)]);
    assert_eq!(asked(&node), rest);
}

#[test]
fn a_number_beyond_the_next_one_is_of_another_session() {
    let node = ScriptedNode::new([refused(0, Refusal::Stale, 4), refused(5, Refusal::Skip, 2)]);
    assert!(matches!(
        connect(node.address, SESSION),
        Err(Error::SessionInUse)
    ));
}

#[test]
fn a_broken_connection_leaves_the_number() {
    let node = node([Step::Close, reply(6, STORED)]);
    client(&node).store("a").expect("stored");
    assert_eq!(asked(&node), asks_of(&[(6, STORE_A), (6, STORE_A)]));
}

#[test]
fn what_passes_is_asked_again() {
    let passing = [
        Refusal::NotEntered,
        Refusal::NotJoined,
        Refusal::Busy,
        Refusal::OutboxFull,
        Refusal::NoMemory,
        Refusal::QueueFull,
    ];
    let steps = passing.map(|refusal| refused(6, refusal, 0));
    let node = node(steps.into_iter().chain([reply(6, STORED)]));
    client(&node).store("a").expect("stored");
    assert_eq!(asked(&node), asks_of(&[(6, STORE_A); 7]));
}

#[test]
fn what_passes_until_the_deadline_is_its_cause() {
    let node = node(vec![refused(6, Refusal::NotJoined, 0); 100]);
    let mut client = client(&node);
    client.set_timeout(SHORT);
    let why = client.store("a").expect_err("no answer");
    assert!(matches!(
        why,
        Error::DeadlineExceeded {
            is_pending: true,
            cause: Cause::Refused(Refusal::NotJoined),
            collects: 0,
        }
    ));
}

#[test]
fn a_late_request_is_settled_before_the_next_one() {
    let node = node([
        Step::Silence,
        Step::Silence,
        reply(6, STORED),
        reply(7, STORED),
    ]);
    let mut client = client(&node);
    client.set_timeout(SHORT);
    assert!(is_late(client.store("a")));
    assert!(!is_late(client.store("b")));
    client.set_timeout(LONG);
    client.store("b").expect("stored");
    let asks = [(6, STORE_A), (6, STORE_A), (6, STORE_A), (7, STORE_B)];
    assert_eq!(asked(&node), asks_of(&asks));
}

#[test]
fn a_late_request_that_is_refused_leaves_its_number() {
    let steps = [
        Step::Silence,
        refused(6, Refusal::SetFull, 0),
        reply(6, STORED),
    ];
    let node = node(steps);
    let mut client = client(&node);
    client.set_timeout(SHORT);
    assert!(is_late(client.add(9)));
    client.set_timeout(LONG);
    client.store("b").expect("stored");
    let asks = [(6, ADD_NINE), (6, ADD_NINE), (6, STORE_B)];
    assert_eq!(asked(&node), asks_of(&asks));
}

#[test]
fn a_late_reading_whose_number_another_command_has_taken_is_forgotten() {
    for told in [refused(6, Refusal::Stale, 6), reply(6, STORED)] {
        let steps = [Step::Silence, told].into_iter().chain(learned(6));
        let node = node(steps.chain([reply(8, STORED)]));
        let mut client = client(&node);
        client.set_timeout(SHORT);
        assert!(is_late(client.collect().map(drop)));
        client.set_timeout(LONG);
        client.store("b").expect("stored");
        let asks = [
            (6, COLLECT),
            (6, COLLECT),
            (0, READ_FLAG),
            (7, READ_FLAG),
            (8, STORE_B),
        ];
        assert_eq!(asked(&node), asks_of(&asks));
    }
}

#[test]
fn a_late_write_whose_number_another_command_has_taken_is_told() {
    for told in [refused(6, Refusal::Stale, 6), reply(6, FLAG_OFF)] {
        let steps = [Step::Silence, told].into_iter().chain(learned(6));
        let node = node(steps.chain([reply(8, STORED)]));
        let mut client = client(&node);
        client.set_timeout(SHORT);
        assert!(is_late(client.store("a")));
        client.set_timeout(LONG);
        assert!(matches!(client.store("b"), Err(Error::SessionInUse)));
        client.store("b").expect("stored");
        let asks = [
            (6, STORE_A),
            (6, STORE_A),
            (0, READ_FLAG),
            (7, READ_FLAG),
            (8, STORE_B),
        ];
        assert_eq!(asked(&node), asks_of(&asks));
    }
}

#[test]
fn refused_for_good() {
    let node = node([refused(6, Refusal::SetFull, 0), reply(6, STORED)]);
    let mut client = client(&node);
    assert!(is_refused(&client.add(9), Refusal::SetFull));
    client.store("b").expect("stored");
    assert_eq!(asked(&node), asks_of(&[(6, ADD_NINE), (6, STORE_B)]));
}

#[test]
fn another_client_in_the_session() {
    let told = [
        refused(6, Refusal::Stale, 9),
        refused(6, Refusal::Skip, 2),
        reply(6, SEEN_NOTHING),
    ];
    for told in told {
        let steps = [told]
            .into_iter()
            .chain(learned(9))
            .chain([reply(11, STORED)]);
        let node = node(steps);
        let mut client = client(&node);
        assert!(matches!(client.store("a"), Err(Error::SessionInUse)));
        client.store("b").expect("stored");
        let asks = [(6, STORE_A), (0, READ_FLAG), (10, READ_FLAG), (11, STORE_B)];
        assert_eq!(asked(&node), asks_of(&asks));
    }
}

#[test]
fn what_is_told_of_others_is_passed_over() {
    let frames = [
        reply_of(SESSION, 5, STORED),
        reply_of(8, 6, STORED),
        refusing(7, Refusal::Busy, 0),
        refusing(6, Refusal::Repeat, 0),
        reply_of(SESSION, 6, "03000000000000002a"),
    ];
    let node = node([Step::Send(frames.concat())]);
    assert_eq!(client(&node).read_max().expect("a maximum"), 42);
}

#[test]
fn malformed_frames_end_the_connection() {
    let malformed = Step::Send(unhex("00010001ff"));
    let node = node([malformed, reply(6, STORED), reply(7, STORED)]);
    let mut client = client(&node);
    let why = client.store("a").expect_err("no frame");
    assert!(matches!(why, Error::Malformed(Fault::TooLarge)));
    client.store("b").expect("stored");
    let asks = [(6, STORE_A), (6, STORE_A), (7, STORE_B)];
    assert_eq!(asked(&node), asks_of(&asks));
}

#[test]
fn a_last_request_that_no_node_has() {
    let node = ScriptedNode::new([refused(0, Refusal::Stale, u64::MAX)]);
    assert!(matches!(
        connect(node.address, SESSION),
        Err(Error::Malformed(Fault::TooLarge))
    ));
}

#[test]
fn addresses_are_tried_in_turn() {
    let gone = TcpListener::bind("127.0.0.1:0").expect("a port");
    let nobody = gone.local_addr().expect("an address");
    drop(gone);
    let node = node([reply(6, STORED)]);
    let mut client = connect(&[nobody, node.address][..], SESSION).expect("a client");
    client.store("a").expect("stored");
    assert_eq!(asked(&node), asks_of(&[(6, STORE_A)]));
}

#[test]
fn a_request_that_was_never_sent_is_not_pending() {
    let gone = TcpListener::bind("127.0.0.1:0").expect("a port");
    let nobody = gone.local_addr().expect("an address");
    drop(gone);
    match connect_timeout(nobody, SESSION, SHORT) {
        Err(Error::DeadlineExceeded {
            is_pending: false,
            cause: Cause::Io(_),
            collects: 0,
        }) => {}
        other => panic!("{:?}", other.map(|_| ())),
    }
}

#[test]
fn arguments_are_looked_at_before_anything_is_sent() {
    let node = node([]);
    let told = client(&node).store([0; 65]);
    assert!(matches!(told, Err(Error::InvalidArgument(_))));
    assert_eq!(asked(&node), []);
    let none: &[SocketAddr] = &[];
    assert!(matches!(
        connect(none, SESSION),
        Err(Error::InvalidArgument(_))
    ));
    assert!(matches!(
        connect("7001", SESSION),
        Err(Error::InvalidArgument(_))
    ));
}

#[test]
fn a_watch_tells_what_changed() {
    let node = node(replies(6, &views()).into_iter().chain([Step::Silence]));
    let mut client = client(&node);
    client.set_timeout(4 * SHORT);
    let mut watch = client.watch(Duration::from_millis(1));
    let mut changes = Vec::new();
    for change in watch.by_ref().take(3) {
        let change = change.expect("a change");
        let old = change.old.map(|row| row.text);
        changes.push((change.node, old, change.new.text));
    }
    let seen = [
        (1, None, b"a".to_vec()),
        (2, None, b"b".to_vec()),
        (1, Some(b"a".to_vec()), b"c".to_vec()),
    ];
    assert_eq!(changes, seen);
    assert!(matches!(
        watch.next(),
        Some(Err(Error::DeadlineExceeded { .. }))
    ));
}

#[test]
fn a_snapshot_is_what_two_collects_in_a_row_show() {
    let a = Row {
        node: 1,
        number: 1,
        text: b"a".to_vec(),
        max: 0,
        flag: false,
        set: vec![],
    };
    let [view, ..] = views();
    for (view, rows) in [(SEEN_NOTHING, vec![]), (&view, vec![a])] {
        let steps = replies(6, &[view, view]);
        let node = node(steps.into_iter().chain([reply(8, STORED)]));
        let mut client = client(&node);
        let taken = Snapshot { rows, collects: 2 };
        assert_eq!(client.snapshot().expect("a snapshot"), taken);
        client.store("a").expect("stored");
        let asks = [(6, COLLECT), (7, COLLECT), (8, STORE_A)];
        assert_eq!(asked(&node), asks_of(&asks));
    }
}

#[test]
fn a_snapshot_collects_until_two_in_a_row_agree() {
    let [one, other, last] = views();
    for first in [&one, &other] {
        let node = node(replies(6, &[first, &last, &last]));
        let taken = client(&node).snapshot().expect("a snapshot");
        let shown: Vec<_> = taken
            .rows
            .into_iter()
            .map(|row| (row.node, row.number, row.text))
            .collect();
        assert_eq!(shown, [(1, 2, b"c".to_vec()), (2, 1, b"b".to_vec())]);
        assert_eq!(taken.collects, 3);
        assert_eq!(asked(&node), collects_of(&[6, 7, 8]));
    }
}

#[test]
fn no_two_collects_in_a_row_agree() {
    let views = views();
    for requests in [&[6, 7, 8, 8][..], &[6, 7, 8, 9, 9]] {
        let answered = requests.len() - 2;
        let late = requests[answered];
        let steps = [
            Step::Silence,
            reply(late, &views[2]),
            reply(late + 1, STORED),
        ];
        let node = node(replies(6, &views[..answered]).into_iter().chain(steps));
        let mut client = client(&node);
        client.set_timeout(4 * SHORT);
        let why = client.snapshot().expect_err("no snapshot");
        let text = format!("no two in a row of {answered} collects agree, since others write");
        assert_eq!(why.to_string(), text);
        assert!(is_late(Err(why)));
        client.set_timeout(LONG);
        client.store("a").expect("stored");
        let mut asks = collects_of(requests);
        asks.extend(asks_of(&[(late + 1, STORE_A)]));
        assert_eq!(asked(&node), asks);
    }
}

#[test]
fn too_few_collects_to_compare() {
    for answered in [0, 1] {
        let steps = replies(6, &views()[..answered]);
        let node = node(steps.into_iter().chain([Step::Silence]));
        let mut client = client(&node);
        client.set_timeout(4 * SHORT);
        let why = client.snapshot().expect_err("no snapshot");
        assert!(why.to_string().starts_with("no answer in time"), "{why}");
        assert!(is_late(Err(why)));
    }
}

#[test]
fn all_collects_of_a_snapshot_have_one_deadline() {
    let views: Vec<_> = (0..20_000)
        .map(|number| format!("020001{}", row(1, number, "a")))
        .collect();
    let node = node(replies(6, &views));
    let mut client = client(&node);
    client.set_timeout(2 * SHORT);
    match client.snapshot() {
        Err(Error::DeadlineExceeded { collects: 2.., .. }) => {}
        other => panic!("{other:?}"),
    }
    let asks = asked(&node);
    assert!(asks.len() < views.len());
    let requests: Vec<u64> = (6..).take(asks.len()).collect();
    assert_eq!(asks, collects_of(&requests));
}

#[test]
fn a_connection_that_breaks_between_the_collects_of_a_snapshot() {
    let [view, ..] = views();
    let node = node([reply(6, &view), Step::Close, reply(7, &view)]);
    let taken = client(&node).snapshot().expect("a snapshot");
    assert_eq!(taken.collects, 2);
    assert_eq!(asked(&node), collects_of(&[6, 7, 7]));
}
