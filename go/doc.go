// Package rangesync is one side of a rangesync session, in this process.
//
// A set is kept here. A session over it speaks with a peer over any connection, and then tells the items that only one
// of the sides has:
//
//	strategy, err := rangesync.ReadStrategy(text) // a strategy file, as examples/all-round.toml
//	here, err := rangesync.NewSet(strategy, []byte("one"), []byte("two"))
//	connection, err := net.Dial("tcp", "127.0.0.1:7700")
//	learned, err := here.Reconcile(connection)
//	fmt.Printf("%q %q\n", learned.Ours, learned.Theirs)
//
// Reconcile speaks first, and Answer lets the peer do so. A program that moves the bytes itself takes what
// [Session.Pull] gives, and gives [Session.Push] what came.
//
// Each value is freed by its Close, or when nothing names it any more; in any order, since a session keeps what it
// needs of its version, its set and its strategy. Goroutines may share a value: its calls wait for each other. But
// [Session.Run] is many calls, and waits for the peer between them: meanwhile no other goroutine runs, pushes or pulls.
// A call for which memory runs out is refused 90.
//
// The library below is proved. This package over it is tested, not proved.
package rangesync
