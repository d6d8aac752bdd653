package main

import (
	"context"
	"errors"
	"fmt"
	"io"
	"net/http"
	"net/http/httptest"
	"os"
	"path/filepath"
	"strings"
	"syscall"
	"testing"
	"time"

	"go.etcd.io/etcd/clientv3"

	"hlcstore"
)

// Begun returns a replica with an empty folder, and an empty store before the first entry.
func begun(t *testing.T) *replica {
	r := &replica{name: "g1", checkpoints: checkpoints{t.TempDir()}, say: func(any) {}}
	must(t, r.beginFromDisk())
	return r
}

func must(t *testing.T, err error) {
	t.Helper()
	if err != nil {
		t.Fatal(err)
	}
}

// Batch returns the items of the writes of some keys at readings 1, 2 and so on, each with the key as its value too.
func batch(t *testing.T, keys ...string) []byte {
	var node hlcstore.Node
	var records []byte
	for at, key := range keys {
		item, err := node.Write(uint64(at+1), []byte(key), []byte(key))
		must(t, err)
		records, err = item.AppendTo(records)
		must(t, err)
	}
	return records
}

func namesIn(t *testing.T, folder string) string {
	files, err := os.ReadDir(folder)
	must(t, err)
	var names []string
	for _, file := range files {
		names = append(names, file.Name())
	}
	return strings.Join(names, " ")
}

func TestTheTwoNewestCheckpointsAreKept(t *testing.T) {
	r := begun(t)
	for revision := int64(5); revision <= 7; revision++ {
		must(t, r.apply(revision, nil))
		if oldest := r.checkpoints.oldest(); oldest != map[int64]int64{5: 0, 6: 0, 7: 5}[revision] {
			t.Errorf("before the save at %d the log is needed behind %d", revision, oldest)
		}
		must(t, r.save())
	}
	if names := namesIn(t, r.checkpoints.folder); names != "0000000000000006.checkpoint 0000000000000007.checkpoint" {
		t.Errorf("there are %s", names)
	}
}

func TestASaveThatFailsLeavesWhatWasThere(t *testing.T) {
	r := begun(t)
	must(t, r.apply(5, nil))
	must(t, r.save())
	full := errors.New("no space")
	err := r.checkpoints.save(6, func(to io.Writer) error {
		to.Write([]byte("a beginning"))
		return full
	})
	if names := namesIn(t, r.checkpoints.folder); err != full || names != "0000000000000005.checkpoint" {
		t.Errorf("%v, and there are %s", err, names)
	}
}

func answersInTime(t *testing.T, r *replica, path string) {
	answered := make(chan int, 1)
	go func() {
		answer := httptest.NewRecorder()
		r.ServeHTTP(answer, httptest.NewRequest(http.MethodGet, path, nil))
		answered <- answer.Code
	}()
	select {
	case status := <-answered:
		if status != http.StatusOK {
			t.Errorf("%s: status %d", path, status)
		}
	case <-time.After(5 * time.Second):
		t.Errorf("%s waits", path)
	}
}

// BeginSave lets a call write a checkpoint of some keys into a pipe, which has room for 64 KiB. It returns when some of
// it has been written.
func beginSave(t *testing.T, r *replica, save func()) *os.File {
	keys := []string{"a"}
	for at := 0; at < 400; at++ {
		keys = append(keys, fmt.Sprintf("%0200d", at))
	}
	must(t, r.apply(5, batch(t, keys...)))
	pipe := filepath.Join(r.checkpoints.folder, "new")
	must(t, syscall.Mkfifo(pipe, 0o600))
	go save()
	written, err := os.Open(pipe)
	must(t, err)
	t.Cleanup(func() { written.Close() })
	_, err = io.ReadFull(written, make([]byte, 1))
	must(t, err)
	return written
}

func TestReadsAndTheLogGoOnWhileACheckpointIsWritten(t *testing.T) {
	r := begun(t)
	saved := make(chan error)
	written := beginSave(t, r, func() { saved <- r.save() })
	applied := make(chan error, 1)
	go func() { applied <- r.apply(6, nil) }()
	for _, path := range []string{"/read?key=a", "/digest", "/state"} {
		answersInTime(t, r, path)
	}
	select {
	case err := <-applied:
		must(t, err)
	case <-time.After(5 * time.Second):
		t.Error("an entry waits for the checkpoint")
	}
	go io.Copy(io.Discard, written)
	if err := <-saved; err == nil {
		t.Error("the file counts, and a pipe cannot be synchronised")
	}
}

// A cluster grants a lease, and notes what is put.
type cluster struct {
	clientv3.KV
	clientv3.Lease
	puts chan string
}

func (c cluster) Put(_ context.Context, key, _ string, _ ...clientv3.OpOption) (*clientv3.PutResponse, error) {
	c.puts <- key
	return nil, nil
}

func (c cluster) Grant(context.Context, int64) (*clientv3.LeaseGrantResponse, error) {
	return &clientv3.LeaseGrantResponse{ID: 1}, nil
}

func (c cluster) KeepAliveOnce(context.Context, clientv3.LeaseID) (*clientv3.LeaseKeepAliveResponse, error) {
	return &clientv3.LeaseKeepAliveResponse{}, nil
}

func TestItPublishesWhileACheckpointIsWritten(t *testing.T) {
	r := begun(t)
	puts := make(chan string, 100)
	r.etcd = &clientv3.Client{KV: cluster{puts: puts}, Lease: cluster{}}
	ctx, cancel := context.WithCancel(context.Background())
	ended := make(chan error)
	written := beginSave(t, r, func() { ended <- r.keepUp(ctx, "address", 0) })
	for at := 0; at < 3; at++ {
		select {
		case key := <-puts:
			if key != "replica/g1" {
				t.Error(key)
			}
		case <-time.After(10 * time.Second):
			t.Fatal("nothing is published")
		}
	}
	cancel()
	go io.Copy(io.Discard, written)
	<-ended
}

// An entry is being applied, or waits for that.
func TestReadsDoNotWaitForAnEntry(t *testing.T) {
	r := begun(t)
	r.between.Lock()
	defer r.between.Unlock()
	answersInTime(t, r, "/read?key=a")
}

func TestWithADamagedCheckpointItBeginsWithTheOneBefore(t *testing.T) {
	r := begun(t)
	must(t, r.apply(5, batch(t, "a")))
	must(t, r.save())
	must(t, r.apply(6, batch(t, "a", "b")))
	must(t, r.save())
	newest := r.checkpoints.paths()[0]
	bytes, err := os.ReadFile(newest)
	must(t, err)
	bytes[len(bytes)/2] ^= 1
	must(t, os.WriteFile(newest, bytes, 0o666))
	again := &replica{checkpoints: r.checkpoints, say: func(any) {}}
	must(t, again.beginFromDisk())
	rows, _ := again.store.Rows()
	names := namesIn(t, r.checkpoints.folder)
	if again.revision != 5 || rows != 1 || names != "0000000000000005.checkpoint" {
		t.Errorf("it begins at %d with %d rows, and there are %s", again.revision, rows, names)
	}
}

// A replica sends a checkpoint, in pieces with pauses, and after some of them nothing more.
func TestACheckpointOfAnotherReplicaMayTakeLong(t *testing.T) {
	silence = time.Second
	defer func() { silence = time.Minute }()
	_, saved, err := begun(t).copyOfStore()
	must(t, err)
	pieces, end := 15, make(chan bool)
	other := httptest.NewServer(http.HandlerFunc(func(to http.ResponseWriter, _ *http.Request) {
		for at := 0; at < pieces; at++ {
			to.Write(saved.Bytes()[saved.Len()*at/15 : saved.Len()*(at+1)/15])
			to.(http.Flusher).Flush()
			time.Sleep(100 * time.Millisecond)
		}
		if pieces < 15 {
			<-end
		}
	}))
	defer other.Close()
	defer close(end)
	address := strings.TrimPrefix(other.URL, "http://")
	r := &replica{say: func(any) {}}
	must(t, r.fetch(context.Background(), address))
	pieces = 5
	if err := r.fetch(context.Background(), address); !errors.Is(err, context.Canceled) {
		t.Error(err)
	}
}

func TestACheckpointOfAnotherVersionVersionStays(t *testing.T) {
	r := begun(t)
	must(t, r.apply(5, batch(t, "a")))
	must(t, r.save())
	newest := r.checkpoints.paths()[0]
	bytes, err := os.ReadFile(newest)
	must(t, err)
	bytes[3] = 2
	must(t, os.WriteFile(newest, bytes, 0o666))
	again := &replica{checkpoints: r.checkpoints, say: func(any) {}}
	err = again.beginFromDisk()
	if err == nil || !strings.HasPrefix(err.Error(), newest+" is of another version") || len(r.checkpoints.paths()) != 1 {
		t.Errorf("%v, and there are %s", err, namesIn(t, r.checkpoints.folder))
	}
}

// An entry with an older threshold, or without one, does not take it back.
func TestItVacuumsToTheGreatestThreshold(t *testing.T) {
	r := begun(t)
	must(t, r.apply(5, batch(t, "a", "b", "c")))
	must(t, r.apply(6, hlcstore.AppendThreshold(nil, 2<<16)))
	must(t, r.apply(7, hlcstore.AppendThreshold(nil, 1<<16)))
	must(t, r.vacuum(context.Background()))
	if horizon, err := r.store.Horizon(); err != nil || horizon != 2<<16 {
		t.Errorf("%v, %v", horizon, err)
	}
}

func TestSnapshotsOfACheckpointAreClosed(t *testing.T) {
	r := begun(t)
	_, err := r.store.Snapshot()
	must(t, err)
	must(t, r.save())
	again := &replica{checkpoints: r.checkpoints, say: func(any) {}}
	must(t, again.beginFromDisk())
	if open, err := again.store.Snapshots(); err != nil || len(open) != 0 {
		t.Errorf("%v, %v", open, err)
	}
}

func TestASealEndsTheLog(t *testing.T) {
	r := begun(t)
	must(t, r.apply(5, batch(t, "a")))
	if err := r.apply(6, []byte(`{"into":[]}`)); err != errSealed || r.revision != 5 {
		t.Errorf("%v at %d", err, r.revision)
	}
}

func TestARefusedEntryIsNamedAndNothingOfItIsKept(t *testing.T) {
	r := begun(t)
	err := r.apply(7, batch(t, "a", "b")[1:])
	if !errors.Is(err, hlcstore.ErrBadBytes) || !strings.Contains(err.Error(), "at revision 7") || r.revision != 0 {
		t.Errorf("%v at %d", err, r.revision)
	}
}

func TestAnswers(t *testing.T) {
	r := begun(t)
	must(t, r.apply(5, batch(t, "a", "b\xff", "c")))
	for _, one := range []struct {
		path, begins string
		status       int
	}{
		{"/read?stamp=131072&key=a&key=b%ff&key=c", `{"stamp":131072,"values":["61","62ff",null]}`, 200},
		{"/read?key=c", `{"stamp":196608,"values":["63"]}`, 200},
		{"/read", `{"refused":"a key is missing"}`, 400},
		{"/range?from=b&to=c", `{"pairs":[["62ff","62ff"]],"stamp":196608}`, 200},
		{"/range?stamp=65535", `{"pairs":[],"stamp":65535}`, 200},
		{"/read?stamp=196609&key=a", `{"refused":"hlcstore: the stamp is above the floor (3.0)"}`, 425},
		{"/read?stamp=-1&key=a", `{"refused":"stamp: expected a decimal number below 2^64, got -1"}`, 400},
		{"/certificate", `{"refused":"stamp: expected a decimal number below 2^64, got "}`, 400},
		{"/read?key=%zz", `{"refused":"invalid URL escape \"%zz\""}`, 400},
		{"/checkpoint", `{"refused":"there is no such path, or no checkpoint yet"}`, 404},
		{"/nothing", `{"refused":"there is no such path, or no checkpoint yet"}`, 404},
		{"/certificate?stamp=131072", "point 2.0\n", 200},
		{"/range?stamp=65536", `{"refused":"hlcstore: the stamp is below the horizon (2.0)"}`, 410},
		{"/state", `{"checkpoint":0,"floor":196608,"horizon":131072,"links":[[3,196608,false]],"name":"g1",`, 200},
	} {
		answer := httptest.NewRecorder()
		r.ServeHTTP(answer, httptest.NewRequest(http.MethodGet, one.path, nil))
		if answer.Code != one.status || !strings.HasPrefix(answer.Body.String(), one.begins) {
			t.Errorf("%s: %d %s", one.path, answer.Code, answer.Body)
		}
	}
}
