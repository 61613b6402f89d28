use super::scripted_node::SESSION;
use crate::addresses::{look_up_by, Address, Addresses};
use crate::connection::Deadline;
use crate::{connect, Cause, Error};
use std::io;
use std::net::SocketAddr;
use std::thread;
use std::time::{Duration, Instant};

const SHORT: Duration = Duration::from_millis(50);
const LONG: Duration = Duration::from_secs(20);

fn address(text: &str) -> SocketAddr {
    text.parse().expect("an address")
}

fn slow(_: &str) -> io::Result<Vec<SocketAddr>> {
    thread::sleep(LONG);
    Ok(vec![address("127.0.0.1:7001")])
}

fn quick(_: &str) -> io::Result<Vec<SocketAddr>> {
    Ok(vec![address("127.0.0.1:7001"), address("[::1]:7001")])
}

#[test]
fn a_look_up_counts_in_the_deadline() {
    let start = Instant::now();
    let told = look_up_by(slow, &"slow.test:7001", Deadline::new(SHORT));
    assert!(start.elapsed() < LONG / 4);
    match told {
        Err(Error::DeadlineExceeded {
            is_pending: false,
            cause: Cause::Io(why),
            ..
        }) => assert_eq!(why.kind(), io::ErrorKind::TimedOut),
        other => panic!("{other:?}"),
    }
}

#[test]
fn addresses_stand_in_their_order() {
    let several = ["127.0.0.1:1".to_string(), "quick.test:7001".to_string()];
    let found = look_up_by(quick, &several, Deadline::new(SHORT)).expect("addresses");
    let wanted = ["127.0.0.1:1", "127.0.0.1:7001", "[::1]:7001"].map(address);
    assert_eq!(found, wanted);
}

#[test]
fn what_needs_no_look_up_is_told_at_once() {
    let known = address("127.0.0.1:1");
    assert_eq!(known.addresses(), [Address::Known(known)]);
    let found = look_up_by(slow, &vec!["127.0.0.1:1", "[::1]:2"], Deadline::new(SHORT));
    assert_eq!(found.expect("addresses"), [known, address("[::1]:2")]);
}

#[test]
fn a_name_that_nobody_knows() {
    assert!(matches!(
        connect("name.invalid:7001", SESSION),
        Err(Error::InvalidArgument(_))
    ));
}
