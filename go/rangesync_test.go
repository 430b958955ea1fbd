package rangesync

import (
	"bufio"
	"errors"
	"io"
	"net"
	"os"
	"os/exec"
	"path/filepath"
	"reflect"
	"strings"
	"testing"
	"time"
)

const seconds = 20 * time.Second

// program is the one that RANGESYNC names, or that of the repository.
func program(words ...string) *exec.Cmd {
	path := os.Getenv("RANGESYNC")
	if path == "" {
		path = filepath.Join("..", "rangesync")
	}
	return exec.Command(path, words...)
}

func eightPath() string { return filepath.Join("..", "examples", "eight.toml") }

// eight is a strategy for sets of up to 8 items.
func eight(t *testing.T) *Strategy {
	t.Helper()
	text, err := os.ReadFile(eightPath())
	if err != nil {
		t.Fatal(err)
	}
	strategy, err := ReadStrategy(text)
	if err != nil {
		t.Fatal(err)
	}
	t.Cleanup(func() { strategy.Close() })
	return strategy
}

// setOf is a set of these items.
func setOf(t *testing.T, items ...string) *Set {
	t.Helper()
	set, err := NewSet(eight(t), bytesOf(items)...)
	if err != nil {
		t.Fatal(err)
	}
	t.Cleanup(func() { set.Close() })
	return set
}

func bytesOf(items []string) [][]byte {
	found := make([][]byte, 0, len(items))
	for _, item := range items {
		found = append(found, []byte(item))
	}
	return found
}

// itemFile is the path of a file of these items as text.
func itemFile(t *testing.T, items ...string) string {
	t.Helper()
	path := filepath.Join(t.TempDir(), "items")
	if err := os.WriteFile(path, []byte(strings.Join(items, "\n")+"\n"), 0o600); err != nil {
		t.Fatal(err)
	}
	return path
}

// serve starts a server of one session over these items: its address, and the lines that it prints until its end.
func serve(t *testing.T, items ...string) (address string, lines func() string) {
	t.Helper()
	return serveWith(t, []string{"--sessions", "1"}, items...)
}

func serveWith(t *testing.T, words []string, items ...string) (address string, lines func() string) {
	t.Helper()
	server := program(append([]string{"serve", "--table", eightPath(), "--addr", "127.0.0.1:0", "--patience", "20",
		"--text", itemFile(t, items...)}, words...)...)
	printed := new(strings.Builder)
	server.Stdout = printed
	told, err := server.StderrPipe()
	if err != nil {
		t.Fatal(err)
	}
	if err := server.Start(); err != nil {
		t.Fatal(err)
	}
	t.Cleanup(func() { _ = server.Process.Kill() })
	lined := bufio.NewScanner(told)
	for address == "" && lined.Scan() {
		if strings.HasPrefix(lined.Text(), "listening ") {
			address = strings.TrimPrefix(lined.Text(), "listening ")
		}
	}
	if address == "" {
		t.Fatalf("the server does not listen: %v", server.Wait())
	}
	return address, func() string {
		_ = server.Wait()
		return printed.String()
	}
}

func dial(t *testing.T, address string) net.Conn {
	t.Helper()
	connection, err := net.DialTimeout("tcp", address, seconds)
	if err != nil {
		t.Fatal(err)
	}
	t.Cleanup(func() { connection.Close() })
	_ = connection.SetDeadline(time.Now().Add(seconds))
	return connection
}

// listen is a listener, and the one connection that it takes.
func listen(t *testing.T) (address string, accept func() net.Conn) {
	t.Helper()
	listener, err := net.Listen("tcp", "127.0.0.1:0")
	if err != nil {
		t.Fatal(err)
	}
	t.Cleanup(func() { listener.Close() })
	_ = listener.(*net.TCPListener).SetDeadline(time.Now().Add(seconds))
	return listener.Addr().String(), func() net.Conn {
		connection, err := listener.Accept()
		if err != nil {
			t.Fatal(err)
		}
		t.Cleanup(func() { connection.Close() })
		_ = connection.SetDeadline(time.Now().Add(seconds))
		return connection
	}
}

func wantLearned(t *testing.T, learned *Learned, err error, ours, theirs []string) {
	t.Helper()
	if err != nil {
		t.Fatal(err)
	}
	if wanted := (&Learned{bytesOf(ours), bytesOf(theirs)}); !reflect.DeepEqual(learned, wanted) {
		t.Fatalf("wanted %q, came %q", wanted, learned)
	}
}

func wantRefused(t *testing.T, err error, number int, byPeer bool) {
	t.Helper()
	var refused *RefusedError
	if !errors.As(err, &refused) || refused.Number != number || refused.ByPeer != byPeer {
		t.Fatalf("wanted refusal %d (by the peer: %t), came %v", number, byPeer, err)
	}
}

func TestReconcileWithServe(t *testing.T) {
	address, lines := serve(t, "dd", "b", "a")
	learned, err := setOf(t, "c", "b").Reconcile(dial(t, address))
	wantLearned(t, learned, err, []string{"c"}, []string{"a", "dd"})
	if printed := lines(); !strings.HasSuffix(printed, "items 4\n") {
		t.Fatalf("the server printed %q", printed)
	}
}

func TestEachProfileWithServe(t *testing.T) {
	for profile := 1; profile <= 2; profile++ {
		address, _ := serve(t, "a", "b")
		version, err := setOf(t, "b", "c").Version()
		if err != nil {
			t.Fatal(err)
		}
		session, err := version.Initiate(profile)
		if err != nil {
			t.Fatal(err)
		}
		learned, err := session.Run(dial(t, address))
		wantLearned(t, learned, err, []string{"c"}, []string{"a"})
		if sent, bound, err := session.Messages(); err != nil || sent < 1 || sent > bound {
			t.Fatalf("sent %d of %d, %v", sent, bound, err)
		}
	}
}

func TestAnswerToSync(t *testing.T) {
	address, accept := listen(t)
	sync := program("sync", "--table", eightPath(), "--addr", address, "--text", itemFile(t, "b", "c"))
	printed := new(strings.Builder)
	sync.Stdout = printed
	if err := sync.Start(); err != nil {
		t.Fatal(err)
	}
	connection := accept()
	learned, err := setOf(t, "a", "b").Answer(connection)
	connection.Close()
	wantLearned(t, learned, err, []string{"a"}, []string{"c"})
	if err := sync.Wait(); err != nil || !strings.HasSuffix(printed.String(), "ours c\ntheirs a\n") {
		t.Fatalf("sync ended with %v and printed %q", err, printed)
	}
}

func TestTwoSetsOfThisProcess(t *testing.T) {
	address, accept := listen(t)
	here, there := dial(t, address), accept()
	full := setOf(t, "a", "b")
	ended := make(chan error, 1)
	go func() {
		_, err := full.Answer(there)
		ended <- err
	}()
	learned, err := setOf(t).Reconcile(here)
	wantLearned(t, learned, err, nil, []string{"a", "b"})
	if err := <-ended; err != nil {
		t.Fatal(err)
	}
}

// partOf is the part of a version between two bounds.
func partOf(t *testing.T, version *Version, lower, upper string) *Version {
	t.Helper()
	part, err := version.Part([]byte(lower), []byte(upper))
	if err != nil {
		t.Fatal(err)
	}
	t.Cleanup(func() { part.Close() })
	return part
}

func versionOf(t *testing.T, items ...string) *Version {
	t.Helper()
	version, err := setOf(t, items...).Version()
	if err != nil {
		t.Fatal(err)
	}
	t.Cleanup(func() { version.Close() })
	return version
}

func wantItems(t *testing.T, version *Version, wanted ...string) {
	t.Helper()
	items, err := version.Items(nil, nil)
	if err != nil || !reflect.DeepEqual(items, bytesOf(wanted)) {
		t.Fatalf("wanted %q, came %q, %v", wanted, items, err)
	}
}

func TestTwoParts(t *testing.T) {
	address, accept := listen(t)
	here, there := dial(t, address), accept()
	whole, other := versionOf(t, "a", "b", "ba", "d"), versionOf(t, "ba", "bb", "c")
	part := partOf(t, other, "b", "c")
	ended := make(chan error, 1)
	go func() {
		_, err := part.Answer(there)
		ended <- err
	}()
	learned, err := partOf(t, whole, "b", "c").Reconcile(here)
	wantLearned(t, learned, err, []string{"b"}, []string{"bb"})
	if err := <-ended; err != nil {
		t.Fatal(err)
	}
	wantItems(t, partOf(t, whole, "ba", ""), "ba", "d")
	wantItems(t, partOf(t, whole, "", "b"), "a")
	wantItems(t, whole, "a", "b", "ba", "d")
	_, err = whole.Part([]byte("c"), []byte("b"))
	wantRefused(t, err, 73, false)
	_, err = whole.Part(nil, make([]byte, 65))
	wantRefused(t, err, 72, false)
}

// A peer that sends these bytes, and then nothing more.
type peer struct {
	io.Reader
	io.Writer
}

func TestRefusedSessions(t *testing.T) {
	set := setOf(t, "a")
	_, err := set.Reconcile(peer{strings.NewReader(""), io.Discard})
	wantRefused(t, err, 3, false)
	_, err = set.Reconcile(peer{strings.NewReader("HTTP/1.1 400 Bad Request\r\n"), io.Discard})
	wantRefused(t, err, 1, false)
	// Its hello, and a fault frame with the number 54.
	address, accept := listen(t)
	here, there := dial(t, address), accept()
	go func() {
		hello := make([]byte, 4)
		_, _ = io.ReadFull(there, hello)
		_, _ = there.Write(append(hello, 0, 0, 0, 2, 5, 54))
	}()
	_, err = set.Reconcile(here)
	wantRefused(t, err, 54, true)
	if err.Error() != "rangesync: peer refused 54 GateClosed" {
		t.Fatal(err)
	}
}

func TestBrokenConnection(t *testing.T) {
	broken, other := net.Pipe()
	other.Close()
	if _, err := setOf(t, "a").Reconcile(broken); !errors.Is(err, io.ErrClosedPipe) {
		t.Fatalf("wanted a closed pipe, came %v", err)
	}
}

func TestRefusedCalls(t *testing.T) {
	_, err := ReadStrategy([]byte("cap = "))
	wantRefused(t, err, 30, false)
	_, err = ReadSet(eight(t), Hex, []byte("61\nno hex\n"))
	wantRefused(t, err, 81, false)
	_, err = NewSet(eight(t), []byte{})
	wantRefused(t, err, 71, false)
	set := setOf(t, "1", "2", "3", "4", "5", "6", "7", "8")
	_, err = set.Insert([]byte("9"))
	wantRefused(t, err, 40, false)
	_, err = set.Insert(make([]byte, 65))
	wantRefused(t, err, 72, false)
	version, err := set.Version()
	if err != nil {
		t.Fatal(err)
	}
	_, err = version.Count([]byte("2"), []byte("1"))
	wantRefused(t, err, 73, false)
	for _, profile := range []int{0, 3, 1<<32 + 1} {
		_, err = version.Initiate(profile)
		wantRefused(t, err, 98, false)
	}
}

func TestSetAndVersion(t *testing.T) {
	set, err := ReadSet(eight(t), Text, []byte("a\nb\nc\n"))
	if err != nil {
		t.Fatal(err)
	}
	version, err := set.Version()
	if err != nil {
		t.Fatal(err)
	}
	if isNew, err := set.Insert([]byte("d")); !isNew || err != nil {
		t.Fatal(isNew, err)
	}
	if isNew, err := set.Insert([]byte("a")); isNew || err != nil {
		t.Fatal(isNew, err)
	}
	if count, err := set.Len(); count != 4 || err != nil {
		t.Fatal(count, err)
	}
	if count, err := version.Len(); count != 3 || err != nil {
		t.Fatal(count, err)
	}
	if has, err := version.Has([]byte("d")); has || err != nil {
		t.Fatal(has, err)
	}
	items, err := version.Items([]byte("b"), nil)
	if err != nil || !reflect.DeepEqual(items, bytesOf([]string{"b", "c"})) {
		t.Fatal(items, err)
	}
}

func TestClosed(t *testing.T) {
	set := setOf(t, "a")
	version, err := set.Version()
	if err != nil {
		t.Fatal(err)
	}
	session, err := version.Initiate(1)
	if err != nil {
		t.Fatal(err)
	}
	for turn := 0; turn < 2; turn++ {
		set.Close()
		version.Close()
	}
	if _, err := set.Len(); !errors.Is(err, ErrClosed) {
		t.Fatalf("wanted %v, came %v", ErrClosed, err)
	}
	// A session keeps what it needs.
	if state, number, err := session.State(); state != Open || number != 0 || err != nil {
		t.Fatal(state, number, err)
	}
	if _, err := session.Learned(); err == nil {
		t.Fatal("an open session has learned nothing yet")
	}
}

// shardsOf is a set of these items in two shards.
func shardsOf(t *testing.T, items ...string) *Shards {
	t.Helper()
	shards, err := NewShards(eight(t), nil, 1, bytesOf(items)...)
	if err != nil {
		t.Fatal(err)
	}
	t.Cleanup(func() { shards.Close() })
	return shards
}

// The item a is in shard 1, and b and c are in shard 0.
func TestShardsWithServe(t *testing.T) {
	address, lines := serveWith(t, []string{"--shards", "1", "--sessions", "3"}, "b", "c")
	learned, err := shardsOf(t, "a", "b").Reconcile(func() (io.ReadWriteCloser, error) { return net.Dial("tcp", address) })
	wantLearned(t, learned, err, []string{"a"}, []string{"c"})
	if printed := lines(); !strings.HasSuffix(printed, "items 3\n") {
		t.Fatalf("the server printed %q", printed)
	}
}

func TestShardsAnswerToSync(t *testing.T) {
	listener, err := net.Listen("tcp", "127.0.0.1:0")
	if err != nil {
		t.Fatal(err)
	}
	defer listener.Close()
	sync := program("sync", "--table", eightPath(), "--addr", listener.Addr().String(), "--shards", "1", "--text",
		itemFile(t, "a", "b"))
	printed := new(strings.Builder)
	sync.Stdout = printed
	if err := sync.Start(); err != nil {
		t.Fatal(err)
	}
	here := shardsOf(t, "b", "c")
	found := new(Learned)
	for session := 0; session < 3; session++ {
		connection, err := listener.Accept()
		if err != nil {
			t.Fatal(err)
		}
		learned, err := here.Answer(connection)
		connection.Close()
		if err != nil {
			t.Fatal(err)
		}
		found.Ours = append(found.Ours, learned.Ours...)
		found.Theirs = append(found.Theirs, learned.Theirs...)
	}
	wantLearned(t, found, nil, []string{"c"}, []string{"a"})
	if err := sync.Wait(); err != nil || !strings.HasSuffix(printed.String(), "ours a\ntheirs c\n") {
		t.Fatalf("sync ended with %v and printed %q", err, printed)
	}
}

func TestShardsThatAreRefused(t *testing.T) {
	_, err := NewShards(eight(t), nil, 4)
	wantRefused(t, err, 82, false)
	for _, bits := range []int{-1, 13, 1<<32 + 1} {
		_, err = NewShards(eight(t), nil, bits)
		wantRefused(t, err, 98, false)
	}
	_, err = NewShards(eight(t), make([]byte, 65), 1)
	wantRefused(t, err, 98, false)
	_, err = ReadShards(eight(t), nil, 0, Text, []byte("a\nb\nc\nd\ne\nf\ng\nh\ni\n"))
	wantRefused(t, err, 82, false)
	_, err = ReadShards(eight(t), nil, 1, Hex, []byte("6\n"))
	wantRefused(t, err, 81, false)
	read, err := ReadShards(eight(t), nil, 1, Text, []byte("a\nb\na\n0x63\n"))
	if err != nil {
		t.Fatal(err)
	}
	defer read.Close()
	if count, err := read.Len(); count != 3 || err != nil {
		t.Fatal(count, err)
	}
	here := shardsOf(t, "a", "b", "c")
	if count, err := here.Len(); count != 3 || err != nil {
		t.Fatal(count, err)
	}
	if isNew, err := here.Insert([]byte("a")); isNew || err != nil {
		t.Fatal(isNew, err)
	}
	_, err = here.Insert(nil)
	wantRefused(t, err, 71, false)
	_, err = here.Version(2)
	wantRefused(t, err, 98, false)
	version, err := here.Version(0)
	if err != nil {
		t.Fatal(err)
	}
	wantItems(t, version, "b", "c")
	asked := map[string]int{"RRS1": 1, "RRSN\x00\x02\xff\xffRRS2": 55, "RRSN\x00\x01": 3, "RRSN\x01x\x01": 55}
	for sent, number := range asked {
		told := new(strings.Builder)
		_, err = here.Answer(peer{strings.NewReader(sent), told})
		wantRefused(t, err, number, false)
		profile := "1"
		if strings.HasSuffix(sent, "RRS2") {
			profile = "2"
		}
		if wanted := "RRS" + profile + "\x00\x00\x00\x02\x05" + string(rune(number)); told.String() != wanted {
			t.Fatalf("wanted %q, came %q", wanted, told)
		}
	}
}
