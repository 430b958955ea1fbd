//! Sessions with the program's `serve` and `sync`, and calls without them. The program is the one that `RANGESYNC`
//! names, or that of the repository.

use std::fs;
use std::io::{self, BufRead, BufReader, Read, Write};
use std::net::{TcpListener, TcpStream};
use std::path::{Path, PathBuf};
use std::process::{Child, Command, Stdio};
use std::sync::atomic::{AtomicU32, Ordering};
use std::thread;
use std::time::Duration;

use rangesync::{Error, Form, Learned, Profile, Refused, Set, Shards, State, Strategy};

const TIMEOUT: Option<Duration> = Some(Duration::from_secs(20));

fn top() -> PathBuf {
    Path::new(env!("CARGO_MANIFEST_DIR")).join("../..")
}

fn eight_path() -> PathBuf {
    top().join("examples/eight.toml")
}

fn program(command: &str) -> Command {
    let path = std::env::var_os("RANGESYNC").map_or_else(|| top().join("rangesync"), PathBuf::from);
    let mut program = Command::new(path);
    program.arg(command).arg("--table").arg(eight_path()).stdout(Stdio::piped()).stderr(Stdio::piped());
    program
}

/// A strategy for sets of up to 8 items.
fn eight() -> Strategy {
    Strategy::read(&fs::read(eight_path()).unwrap()).unwrap()
}

fn set_of(items: &[&str]) -> Set {
    let mut set = Set::new(&eight()).unwrap();
    assert_eq!(set.insert_all(items), Ok(items.len()));
    set
}

fn learned_of(ours: &[&str], theirs: &[&str]) -> Learned {
    let bytes = |items: &[&str]| items.iter().map(|item| item.as_bytes().to_vec()).collect();
    Learned { ours: bytes(ours), theirs: bytes(theirs) }
}

/// A file of these items as text, which is removed in the end.
struct ItemFile(PathBuf);

impl ItemFile {
    fn new(items: &[&str]) -> ItemFile {
        static NUMBER: AtomicU32 = AtomicU32::new(0);
        let number = NUMBER.fetch_add(1, Ordering::Relaxed);
        let path = std::env::temp_dir().join(format!("rangesync-{}-{number}.items", std::process::id()));
        fs::write(&path, items.join("\n") + "\n").unwrap();
        ItemFile(path)
    }
}

impl Drop for ItemFile {
    fn drop(&mut self) {
        let _ = fs::remove_file(&self.0);
    }
}

/// `serve` as it runs, for one session. It is ended in any case.
struct Server {
    process: Child,
    address: String,
    _items: ItemFile,
}

impl Server {
    fn new(items: &[&str]) -> Server {
        Server::with(&["--sessions", "1"], items)
    }

    fn with(more: &[&str], items: &[&str]) -> Server {
        let items = ItemFile::new(items);
        let words = ["--addr", "127.0.0.1:0", "--patience", "20", "--text"];
        let mut process = program("serve").args(more).args(words).arg(&items.0).spawn().unwrap();
        let told = BufReader::new(process.stderr.take().unwrap());
        let mut lines = told.lines().map_while(Result::ok);
        let address = lines.find_map(|line| line.strip_prefix("listening ").map(str::to_owned));
        let address = address.expect("the server listens");
        Server { process, address, _items: items }
    }

    fn connect(&self) -> TcpStream {
        with_timeout(TcpStream::connect(&self.address).unwrap())
    }

    /// All that it printed, once it has ended.
    fn printed(&mut self) -> String {
        let mut printed = String::new();
        self.process.stdout.take().unwrap().read_to_string(&mut printed).unwrap();
        self.process.wait().unwrap();
        printed
    }
}

impl Drop for Server {
    fn drop(&mut self) {
        let _ = self.process.kill();
        let _ = self.process.wait();
    }
}

fn with_timeout(connection: TcpStream) -> TcpStream {
    connection.set_read_timeout(TIMEOUT).unwrap();
    connection.set_write_timeout(TIMEOUT).unwrap();
    connection
}

/// Both ends of a connection.
fn connected() -> (TcpStream, TcpStream) {
    let listener = TcpListener::bind("127.0.0.1:0").unwrap();
    let here = TcpStream::connect(listener.local_addr().unwrap()).unwrap();
    (with_timeout(here), with_timeout(listener.accept().unwrap().0))
}

/// A peer that sent these bytes, and sends no more.
struct Peer(&'static [u8]);

impl Read for Peer {
    fn read(&mut self, room: &mut [u8]) -> io::Result<usize> {
        self.0.read(room)
    }
}

impl Write for Peer {
    fn write(&mut self, bytes: &[u8]) -> io::Result<usize> {
        Ok(bytes.len())
    }

    fn flush(&mut self) -> io::Result<()> {
        Ok(())
    }
}

fn refused_by(error: Error) -> Refused {
    match error {
        Error::Refused(refused) => refused,
        other => panic!("wanted a refusal, came {other}"),
    }
}

#[test]
fn reconciles_with_serve() {
    let mut server = Server::new(&["dd", "b", "a"]);
    let learned = set_of(&["c", "b"]).reconcile(server.connect()).unwrap();
    assert_eq!(learned, learned_of(&["c"], &["a", "dd"]));
    assert!(server.printed().ends_with("items 4\n"));
}

#[test]
fn reconciles_in_each_profile() {
    for profile in [Profile::One, Profile::Two] {
        let server = Server::new(&["a", "b"]);
        let mut session = set_of(&["b", "c"]).version().unwrap().initiate(profile).unwrap();
        assert_eq!(session.run(server.connect()).unwrap(), learned_of(&["c"], &["a"]));
        assert!((1..=session.bound()).contains(&session.sent()));
        assert_eq!(session.state(), State::Ended);
    }
}

#[test]
fn answers_sync() {
    let listener = TcpListener::bind("127.0.0.1:0").unwrap();
    let items = ItemFile::new(&["b", "c"]);
    let address = listener.local_addr().unwrap().to_string();
    let sync = program("sync").args(["--addr", &address, "--text"]).arg(&items.0).spawn().unwrap();
    let connection = with_timeout(listener.accept().unwrap().0);
    let learned = set_of(&["a", "b"]).answer(&connection).unwrap();
    drop(connection);
    assert_eq!(learned, learned_of(&["a"], &["c"]));
    let printed = String::from_utf8(sync.wait_with_output().unwrap().stdout).unwrap();
    assert!(printed.ends_with("ours c\ntheirs a\n"), "{printed}");
}

#[test]
fn a_set_moves_to_another_thread() {
    let (here, there) = connected();
    let full = set_of(&["a", "b"]);
    let other = thread::spawn(move || full.answer(there));
    assert_eq!(set_of(&[]).reconcile(here).unwrap(), learned_of(&[], &["a", "b"]));
    assert_eq!(other.join().unwrap().unwrap(), learned_of(&["a", "b"], &[]));
}

#[test]
fn parts_are_compared() {
    let (mine, other) = (set_of(&["a", "b", "ba", "d"]), set_of(&["ba", "bb", "c"]));
    let (whole, far) = (mine.version().unwrap(), other.version().unwrap());
    for profile in [Profile::One, Profile::Two] {
        let (here, there) = connected();
        let mut asked = far.part(b"b", b"c").unwrap().respond(profile).unwrap();
        let answered = thread::spawn(move || asked.run(there).unwrap());
        let learned = whole.part(b"b", b"c").unwrap().initiate(profile).unwrap().run(here).unwrap();
        assert_eq!(learned, learned_of(&["b"], &["bb"]));
        assert_eq!(answered.join().unwrap(), learned_of(&["bb"], &["b"]));
    }
    let items = |lower, upper| whole.part(lower, upper).unwrap().items(b"", b"").unwrap();
    assert_eq!(items(b"ba", b""), [b"ba".to_vec(), b"d".to_vec()]);
    assert_eq!(items(b"", b"b"), [b"a".to_vec()]);
    assert_eq!(items(b"", b""), whole.items(b"", b"").unwrap());
    assert_eq!(whole.len(), 4);
    let refused = |lower, upper| whole.part(lower, upper).map(|_| ()).unwrap_err().to_string();
    assert_eq!(refused(b"c", b"b"), "refused 73 EmptyRange");
    assert_eq!(refused(b"", &[b'x'; 65]), "refused 72 TooLong");
}

#[test]
fn sessions_are_refused() {
    let set = set_of(&["a"]);
    let truncated = set.reconcile(Peer(b"")).unwrap_err();
    assert_eq!(truncated.number(), Some(3));
    let hello = refused_by(set.reconcile(Peer(b"HTTP/1.1 400 Bad Request\r\n")).unwrap_err());
    assert_eq!((hello.number(), hello.name(), hello.by_peer()), (1, "BadHello", false));
    // The peer sends its hello, and a fault frame with the number 54.
    let (here, mut there) = connected();
    thread::spawn(move || {
        let mut hello = [0; 4];
        there.read_exact(&mut hello).unwrap();
        there.write_all(&[&hello[..], &[0, 0, 0, 2, 5, 54]].concat()).unwrap();
        there
    });
    let refused = refused_by(set.reconcile(here).unwrap_err());
    assert!(refused.by_peer());
    assert_eq!(refused.to_string(), "peer refused 54 GateClosed");
}

#[test]
fn a_connection_breaks() {
    let (here, there) = connected();
    here.shutdown(std::net::Shutdown::Write).unwrap();
    let error = set_of(&["a"]).reconcile(here).unwrap_err();
    drop(there);
    assert_eq!(error.number(), None);
    assert!(matches!(error, Error::Connection(fault) if fault.kind() == io::ErrorKind::BrokenPipe));
}

#[test]
fn calls_are_refused() {
    let number = |refused: Refused| refused.number();
    assert_eq!(Strategy::read(b"cap = ").map(|_| ()).map_err(number), Err(30));
    assert_eq!(Set::read(&eight(), Form::Hex, b"61\nno hex\n").map(|_| ()).map_err(number), Err(81));
    let mut set = set_of(&["1", "2", "3", "4", "5", "6", "7", "8"]);
    assert_eq!(set.insert(b"").map_err(number), Err(71));
    assert_eq!(set.insert(&[0; 65]).map_err(number), Err(72));
    assert_eq!(set.insert(b"9").unwrap_err().to_string(), "refused 40 Full");
    let version = set.version().unwrap();
    assert_eq!(version.count(b"2", b"1").map_err(number), Err(73));
    assert_eq!(version.initiate(Profile::One).unwrap().learned().map_err(number), Err(98));
}

#[test]
fn a_version_stays_as_it_is() {
    let mut set = Set::read(&eight(), Form::Text, b"a\nb\nc\n").unwrap();
    let version = set.version().unwrap();
    assert_eq!(set.insert(b"d"), Ok(true));
    assert_eq!(set.insert(b"a"), Ok(false));
    assert_eq!((set.len(), version.len()), (4, 3));
    assert_eq!(version.contains(b"d"), Ok(false));
    drop(set);
    assert_eq!(version.items(b"b", b""), Ok(vec![b"b".to_vec(), b"c".to_vec()]));
}

fn shards_of(items: &[&str]) -> Shards {
    let mut shards = Shards::new(&eight(), b"", 1).unwrap();
    assert_eq!(shards.insert_all(items), Ok(items.len()));
    shards
}

/// The item a is in shard 1, and b and c are in shard 0.
#[test]
fn shards_with_serve() {
    let mut server = Server::with(&["--shards", "1", "--sessions", "3"], &["b", "c"]);
    let learned = shards_of(&["a", "b"]).reconcile(|| Ok(server.connect())).unwrap();
    assert_eq!(learned, learned_of(&["a"], &["c"]));
    assert!(server.printed().ends_with("items 3\n"));
}

#[test]
fn shards_answer_to_sync() {
    let listener = TcpListener::bind("127.0.0.1:0").unwrap();
    let items = ItemFile::new(&["a", "b"]);
    let address = listener.local_addr().unwrap().to_string();
    let sync = program("sync").args(["--shards", "1", "--addr", &address, "--text"]).arg(&items.0).spawn().unwrap();
    let here = shards_of(&["b", "c"]);
    let mut found = Learned::default();
    for _ in 0..3 {
        let learned = here.answer(with_timeout(listener.accept().unwrap().0)).unwrap();
        found.ours.extend(learned.ours);
        found.theirs.extend(learned.theirs);
    }
    assert_eq!(found, learned_of(&["c"], &["a"]));
    let printed = sync.wait_with_output().unwrap();
    assert!(printed.status.success() && printed.stdout.ends_with(b"ours a\ntheirs c\n"));
}

#[test]
fn shards_that_are_refused() {
    let number = |made: Result<Shards, Refused>| made.err().unwrap().number();
    assert_eq!(number(Shards::new(&eight(), b"", 4)), 82);
    assert_eq!(number(Shards::new(&eight(), b"", 13)), 98);
    assert_eq!(number(Shards::new(&eight(), &[0; 65], 1)), 98);
    assert_eq!(number(Shards::read(&eight(), b"", 0, Form::Text, b"a\nb\nc\nd\ne\nf\ng\nh\ni\n")), 82);
    assert_eq!(number(Shards::read(&eight(), b"", 1, Form::Hex, b"6\n")), 81);
    assert_eq!(Shards::read(&eight(), b"", 1, Form::Text, b"a\nb\na\n0x63\n").unwrap().len(), 3);
    let mut here = shards_of(&["a", "b", "c"]);
    assert_eq!((here.len(), here.insert(b"a"), here.is_empty()), (3, Ok(false), false));
    assert_eq!(here.insert(b"").unwrap_err().number(), 71);
    assert_eq!(here.version(2).err().unwrap().number(), 98);
    assert_eq!(here.version(0).unwrap().items(b"", b"").unwrap(), [b"b", b"c"]);
    let asked: [(&[u8], u8, u8); 4] = [
        (b"RRS1", b'1', 1),
        (b"RRSN\0\x02\xff\xffRRS2", b'2', 55),
        (b"RRSN\0\x01", b'1', 3),
        (b"RRSN\x01x\x01", b'1', 55),
    ];
    for (sent, profile, wanted) in asked {
        let mut peer = Told { sent, wrote: Vec::new() };
        assert_eq!(here.answer(&mut peer).unwrap_err().number(), Some(u32::from(wanted)));
        assert_eq!(peer.wrote, [b'R', b'R', b'S', profile, 0, 0, 0, 2, 5, wanted]);
    }
}

/// A peer that sends these bytes, and then nothing more.
struct Told<'a> {
    sent: &'a [u8],
    wrote: Vec<u8>,
}

impl Read for &mut Told<'_> {
    fn read(&mut self, room: &mut [u8]) -> io::Result<usize> {
        self.sent.read(room)
    }
}

impl Write for &mut Told<'_> {
    fn write(&mut self, bytes: &[u8]) -> io::Result<usize> {
        self.wrote.write(bytes)
    }

    fn flush(&mut self) -> io::Result<()> {
        Ok(())
    }
}
