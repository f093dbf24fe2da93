//! The ends on sockets of this host, their other ends served in this process. What a whole gateway
//! does between them is shown by checks/passage.py, over the built program.
use super::{CentreListener, LineDialler, LineSocket, SystemClock};
use crate::allow_list::AllowList;
use crate::ends::{Got, Listener, OctetStream, RefusedPeers};
use crate::redial::Redialled;
use crate::stream::SocketStream;
use std::io::{Read, Write};
use std::net::{IpAddr, Ipv4Addr, Net, OpenStream, SocketAddr, TcpListener, TcpStream};
use std::os::unix::net::UnixStream;
use std::process::Abort;
use std::test::Fail;
use std::time::{Duration, Instant};

/// These octets come next at the other end of a stream.
fn receives(rt: &impl Abort, stream: &mut TcpStream, octets: &[u8]) -> Result<(), Fail> {
    let mut received = [0u8; 32];
    assert!(rt; octets.len() <= 32);
    let received = &mut received[..octets.len()];
    stream.read_exact(received)?;
    assert_eq!(rt; &*received, octets);
    Ok(())
}

/// A control centre that connects and starts data transfer.
fn started<R: Net<Stream = TcpStream>>(rt: &R, address: SocketAddr) -> Result<TcpStream, Fail> {
    let mut centre = TcpStream::connect(rt, address)?;
    centre.set_read_timeout(Some(Duration::from_millis(1000)))?;
    centre.write_all(&[0x68, 4, 7, 0, 0, 0])?;
    Ok(centre)
}

#[test]
fn a_quiet_line_does_not_hold_who_looks(rt: HostRuntime) -> Result<(), Fail> {
    let (stream, mut station) = UnixStream::pair(&rt)?;
    let mut line = LineSocket::over(SocketStream::Unix(stream))?;
    let mut buf = [0; 1024];
    assert_eq!(rt; line.read(&mut buf), Got::Quiet);
    station.write_all(&[0xE5])?;
    assert_eq!(rt; line.read(&mut buf), Got::Octets(1));

    // What waits when a request goes out is no answer to it.
    station.write_all(&[0x10, 0x0B])?;
    assert_eq!(rt; line.drop_waiting(), 2);
    assert_eq!(rt; line.drop_waiting(), 0);
    assert!(rt; line.write(&[0x10, 0x49, 0x01, 0x4A, 0x16]));
    assert_eq!(rt; line.read(&mut buf), Got::Quiet);
    station.read_exact(&mut buf[..5])?;
    assert_eq!(rt; buf[1], 0x49);

    drop(station);
    assert_eq!(rt; line.read(&mut buf), Got::Gone);
    assert!(rt; !line.write(&[0xE5]));
    Ok(())
}

#[test]
fn an_address_that_is_not_allowed_is_refused(rt: HostRuntime) -> Result<(), Fail> {
    let mut listener = CentreListener::listen(&rt, "127.0.0.1:0")?;
    let address = listener.address()?;
    let here = address.ip();
    let elsewhere = IpAddr::V4(Ipv4Addr::new(127, 0, 0, 2));
    let mut stranger = started(&rt, address)?;
    let allow_list = AllowList::Only(vec![in rt.alloc(); elsewhere]?);
    assert!(rt; listener.accept(&allow_list).is_none());
    let refused = RefusedPeers {
        count: 1,
        last: Some(here),
    };
    assert!(rt; listener.refused() == refused);
    assert!(rt;
        matches!(stranger.read(&mut [0; 1]), Ok(0) | Err(_)),
        "the connection is shut"
    );
    let _allowed = started(&rt, address)?;
    let allow_list = AllowList::Only(vec![in rt.alloc(); elsewhere, here]?);
    let accepted = listener.accept(&allow_list).ok_or("a connection")?;
    assert_eq!(rt; accepted.address, here);
    assert_eq!(rt; listener.refused().count, 1);
    Ok(())
}

#[test]
fn of_all_who_wait_the_last_one_stays(rt: HostRuntime) -> Result<(), Fail> {
    let mut listener = CentreListener::listen(&rt, "127.0.0.1:0")?;
    assert!(rt; listener.accept(&AllowList::Anyone).is_none());
    let address = listener.address()?;
    let mut first = started(&rt, address)?;
    let mut last = started(&rt, address)?;
    let mut stream = listener
        .accept(&AllowList::Anyone)
        .ok_or("a connection")?
        .stream;
    assert!(rt; listener.accept(&AllowList::Anyone).is_none());
    assert!(rt;
        matches!(first.read(&mut [0; 1]), Ok(0) | Err(_)),
        "the first is shut"
    );
    assert!(rt; stream.write(&[0x68, 4, 0x0B, 0, 0, 0]));
    receives(&rt, &mut last, &[0x68, 4, 0x0B, 0, 0, 0])?;

    // A control centre that never reads takes no more at some time, and then it isn't waited for
    // long.
    let start = Instant::now(&rt)?;
    let mut is_taken = true;
    for _ in 0..1_000_000 {
        if !stream.write(&[0; 255]) {
            is_taken = false;
            break;
        }
    }
    assert!(rt; !is_taken);
    assert!(rt; start.elapsed(&rt)? < Duration::from_secs(20));
    Ok(())
}

#[test]
fn a_line_comes_back(rt: HostRuntime) -> Result<(), Fail> {
    let server = TcpListener::bind(&rt, "127.0.0.1:0")?;
    let place = format!(in rt.alloc(); "tcp:{}", server.local_addr()?)?;
    let mut line = Redialled::new(
        LineDialler::new(&rt, place.as_str()),
        SystemClock::start(&rt)?,
    );
    let mut buf = [0; 1024];
    assert!(rt; !line.write(&[0xE5]), "it is away");
    assert_eq!(rt; line.read(&mut buf), Got::Quiet);
    let (mut station, _) = server.accept()?;
    station.write_all(&[0xE5])?;
    // The look that finds it connected is quiet.
    assert_eq!(rt; line.read(&mut buf), Got::Quiet);
    assert_eq!(rt; line.read(&mut buf), Got::Octets(1));
    assert!(rt; line.write(&[0xE5]));
    drop(station);
    assert_eq!(rt; line.read(&mut buf), Got::Quiet);
    assert!(rt; !line.write(&[0xE5]), "it is away again");
    Ok(())
}
