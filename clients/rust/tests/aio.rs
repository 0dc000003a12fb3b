//! The session of tokio, over the public items alone: what a call leaves that is dropped.
#![cfg(feature = "tokio")]
use std::future::Future;
use std::io::{BufRead, BufReader, ErrorKind, Write};
use std::net::{SocketAddr, TcpListener, TcpStream};
use std::sync::{mpsc, Arc, Mutex};
use std::thread;
use std::time::Duration;
use tokio::runtime::Builder;
use tokio::time::timeout;
use truetime::aio::{Event, Session};
use truetime::{Error, Refused};

const TIMEOUT: Duration = Duration::from_secs(10);
const SOON: Duration = Duration::from_millis(50);

/// A service that gives these replies, in turn, each to a line that has to be this; a reply comes once that is allowed, where its
/// text begins with `late`, and `end` ends the connection. The address, and what allows late replies.
fn serve(script: &'static [(&str, &str)]) -> (SocketAddr, mpsc::Sender<()>) {
    let listener = TcpListener::bind("127.0.0.1:0").expect("a port");
    let address = listener.local_addr().expect("an address");
    let (allow, allowed) = mpsc::channel();
    thread::spawn(move || {
        let mut script = script.iter();
        let mut connection: Option<(TcpStream, BufReader<TcpStream>)> = None;
        for (line, reply) in &mut script {
            let (stream, lines) = connection.get_or_insert_with(|| {
                let (stream, _) = listener.accept().expect("a connection");
                (stream.try_clone().expect("a stream"), BufReader::new(stream))
            });
            let mut came = String::new();
            lines.read_line(&mut came).expect("a line");
            assert_eq!(came, format!("{line}\n"));
            match reply.strip_prefix("late ") {
                _ if *reply == "end" => connection = None,
                Some(reply) => {
                    allowed.recv().expect("it is allowed");
                    writeln!(stream, "{reply}").expect("it is sent");
                }
                None => writeln!(stream, "{reply}").expect("it is sent"),
            }
        }
        thread::sleep(TIMEOUT);
    });
    (address, allow)
}

fn run<T>(test: impl Future<Output = T>) -> T {
    Builder::new_current_thread().enable_all().build().expect("a runtime").block_on(test)
}

async fn connected(address: SocketAddr) -> Session {
    Session::connect_tcp(address, TIMEOUT).await.expect("a session")
}

/// A call that is dropped soon.
async fn dropped<T>(call: impl Future<Output = Result<T, Error>>) {
    assert!(timeout(SOON, call).await.is_err(), "it waits");
}

#[test]
fn the_longest_time_out() {
    let (address, _allow) = serve(&[("after 5", "yes")]);
    run(async {
        let mut session = Session::connect_tcp(address, Duration::MAX).await.expect("a session");
        assert!(session.after(5).await.expect("a reply"));
    });
}

#[test]
fn a_wait_that_is_dropped() {
    let (address, allow) =
        serve(&[("commit 1 0", "waiting 1 200"), ("commit 1 0", "late waiting 1 200"), ("commit 1 0", "committed 1 200")]);
    run(async {
        let mut session = connected(address).await;
        assert_eq!(session.begin(0).await.expect("a timestamp"), 200);
        dropped(session.wait()).await;
        allow.send(()).expect("it serves");
        let error = session.commit(0).await.expect_err("one is pending");
        assert!(matches!(error, Error::Pending(of) if (of.commit, of.stamp_ns) == (1, 200)), "{error:?}");
        assert_eq!(session.wait().await.expect("it is released"), 200);
    });
}

#[test]
fn a_begin_that_is_dropped() {
    let (address, allow) = serve(&[
        ("commit 1 5", "late waiting 1 200"),
        ("commit 1 0", "committed 1 200"),
        ("commit 2 5", "waiting 2 201"),
        ("commit 2 0", "committed 2 201"),
    ]);
    run(async {
        let mut session = connected(address).await;
        dropped(session.begin(5)).await;
        allow.send(()).expect("it serves");
        assert!(matches!(session.wait().await, Err(Error::NoCommit)));
        assert_eq!(session.commit(5).await.expect("a timestamp"), 201);
    });
}

#[test]
fn a_begin_that_is_dropped_and_refused() {
    let (address, allow) = serve(&[
        ("commit 1 5", "late refused 1824"), // it may have begun
        ("commit 2 5", "refused 1104"),
        ("commit 1 0", "committed 1 200"),
        ("commit 2 5", "committed 2 201"),
    ]);
    run(async {
        let mut session = connected(address).await;
        dropped(session.begin(5)).await;
        allow.send(()).expect("it serves");
        assert_eq!(session.commit(5).await.expect("a timestamp"), 201);
    });
}

#[test]
fn a_lease_that_is_dropped() {
    let (address, allow) = serve(&[("lease 5 9", "late leased 5 9"), ("commit 1 0", "committed 1 5")]);
    run(async {
        let mut session = connected(address).await;
        dropped(session.lease(5, 9)).await;
        allow.send(()).expect("it serves");
        assert_eq!(session.commit(0).await.expect("a timestamp"), 5);
    });
}

#[test]
fn a_reading_that_is_dropped_and_no_reply() {
    let (address, allow) = serve(&[("now", "late hello")]);
    run(async {
        let mut session = connected(address).await;
        dropped(session.now()).await;
        allow.send(()).expect("it serves");
        let error = session.now().await.expect_err("it is no reply");
        assert!(matches!(&error, Error::Failed(error) if error.kind() == ErrorKind::InvalidData), "{error:?}");
    });
}

#[test]
fn what_is_lost_and_told() {
    let (address, _allow) = serve(&[
        ("lease 5 999", "leased 5 999"),
        ("commit 1 0", "waiting 1 200"),
        ("commit 1 0", "end"),
        ("now", "refused 801"),
        ("now", "now 5 15"),
    ]);
    let told = Arc::new(Mutex::new(Vec::new()));
    let kept = told.clone();
    run(async {
        let mut session = connected(address).await;
        session.observe(move |event| {
            kept.lock().expect("no panic").push(match event {
                Event::ConnectedAnew => "anew".to_string(),
                Event::ConnectionFailed(error) => format!("{:?}", error.kind()),
                Event::Refused(refused) => refused.number().to_string(),
                _ => "another".to_string(),
            })
        });
        session.lease(5, 999).await.expect("a lease");
        session.begin(0).await.expect("a timestamp");
        let error = session.wait().await.expect_err("it ends");
        assert!(matches!(error, Error::Lost { pending: Some(_), had_lease: true, .. }), "{error:?}");
        assert!(matches!(session.begin(0).await, Err(Error::Refused(Refused::LeaseOver))));
        assert_eq!(session.now().await.expect_err("it refuses").number(), Some(801));
        assert_eq!(session.now().await.expect("a reading").latest_ns, 15);
    });
    assert_eq!(*told.lock().expect("no panic"), ["UnexpectedEof", "anew", "801"]);
}

#[test]
fn a_session_goes_to_another_thread() {
    fn is_sent<T: Send>(of: T) -> T {
        of
    }
    let (address, _allow) = serve(&[("commit 1 0", "waiting 1 200"), ("commit 1 0", "committed 1 200")]);
    let stamp_ns = run(is_sent(async move {
        let mut session = connected(address).await;
        session.commit(0).await.expect("a timestamp")
    }));
    assert_eq!(stamp_ns, 200);
}
