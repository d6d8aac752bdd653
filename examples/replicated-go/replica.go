package main

import (
	"bytes"
	"context"
	"encoding/json"
	"errors"
	"fmt"
	"io"
	"log"
	"net/http"
	"os"
	"sync"
	"time"

	"go.etcd.io/etcd/clientv3"

	"hlcstore"
)

// Silence is how long another replica may send nothing of its checkpoint.
var silence = time.Minute

const (
	firstNodes = 1                      // the coordinator's node; all others join
	lease      = 10                     // seconds after which the cluster forgets a replica that is gone
	pause      = 500 * time.Millisecond // between two rounds of upkeep
	partKeys   = 4096                   // of a vacuum, so that the log is applied between its parts
)

// A replica is a store with the place in the log up to which that was applied to it.
type replica struct {
	name        string
	etcd        *clientv3.Client
	checkpoints checkpoints
	say         func(any)
	lease       clientv3.LeaseID
	saving      sync.Mutex
	between     sync.RWMutex // whoever has it sees the store between two entries of the log
	fields      sync.RWMutex // of the next three, for reads: they wait neither for an entry nor for a checkpoint
	store       *hlcstore.Store
	revision    int64
	threshold   hlcstore.Stamp
}

// errCut says that etcd no longer has all that comes next: only a newer checkpoint helps. errSealed says that other
// ranges go on with the keys: what was applied can still be read.
var (
	errCut    = errors.New("the log begins behind what was applied, so this begins from another replica")
	errSealed = errors.New("the log has ended: other ranges go on")
)

var otherVersion = hlcstore.Error{Code: hlcstore.ErrBadBytes, Word: 2}

// Apply accepts items, and lets nodes join: all replicas do so at the same place of the log, with the same start. What
// was applied before is passed over.
func (r *replica) apply(revision int64, records []byte) error {
	r.between.Lock()
	defer r.between.Unlock()
	if bytes.HasPrefix(records, []byte("{")) {
		return errSealed
	}
	applied, err := r.store.ApplyRecords(records)
	if err != nil {
		return fmt.Errorf("the entry at revision %d: %w", revision, err)
	}
	r.fields.Lock()
	defer r.fields.Unlock()
	if r.revision = revision; applied.Threshold > r.threshold {
		r.threshold = applied.Threshold
	}
	return nil
}

// Follow applies the log as it grows, until it ends or the context does.
func (r *replica) follow(ctx context.Context) error {
	for ctx.Err() == nil {
		switch err := r.watch(ctx); err {
		case nil:
			wait(ctx, 50*time.Millisecond) // the member lost its leader: another watch goes on
		case errCut:
			log.Print(err)
			r.beginFromAnother(ctx)
		case errSealed:
			log.Print(err)
			<-ctx.Done()
		default:
			return err
		}
	}
	return ctx.Err()
}

// Watch applies entries above the revision as they come, in order, until the watch ends.
func (r *replica) watch(ctx context.Context) error {
	ctx, cancel := context.WithCancel(clientv3.WithRequireLeader(ctx))
	defer cancel()
	for answer := range r.etcd.Watch(ctx, "log/", clientv3.WithPrefix(), clientv3.WithRev(r.revision+1),
		clientv3.WithFilterDelete(), clientv3.WithFragment()) {
		if answer.CompactRevision != 0 {
			return errCut
		}
		for _, event := range answer.Events {
			if err := r.apply(event.Kv.ModRevision, event.Kv.Value); err != nil {
				return err
			}
		}
	}
	return nil
}

// BeginFromDisk begins with the newest checkpoint that is whole, or with an empty store before the first entry. A
// checkpoint of another version stays for its program.
func (r *replica) beginFromDisk() error {
	for _, path := range r.checkpoints.paths() {
		file, err := os.Open(path)
		if err != nil {
			return err
		}
		err = r.begin("disk", file)
		file.Close()
		if !errors.Is(err, hlcstore.ErrBadBytes) && !errors.Is(err, hlcstore.ErrNoCheckpoint) {
			return err
		}
		if refused := new(hlcstore.Error); errors.As(err, &refused) && *refused == otherVersion {
			return fmt.Errorf("%s is of another version, or its beginning is damaged: start the program that saved it, "+
				"or remove it", path)
		}
		log.Printf("removes a damaged checkpoint, %s: %v", path, err)
		os.Remove(path)
	}
	return r.begin("empty", nil)
}

// Begin goes on with the store of a checkpoint, or with an empty one. The snapshots in a checkpoint are closed: their
// readers are gone.
func (r *replica) begin(origin string, saved io.Reader) error {
	start, tag := time.Now(), uint64(0)
	store, err := hlcstore.Open(firstNodes)
	if err == nil && saved != nil {
		store, tag, err = hlcstore.Restore(saved)
	}
	if err != nil {
		return err
	}
	rows, err := store.Rows()
	if err := firstOf(store.CloseAll(), err); err != nil {
		return err
	}
	r.between.Lock()
	r.fields.Lock()
	r.store, r.revision = store, int64(tag)
	r.fields.Unlock()
	r.between.Unlock()
	log.Printf("begins from %s at revision %d, with %d rows", origin, tag, rows)
	r.say(map[string]any{"begins": origin, "revision": tag, "rows": rows, "seconds": time.Since(start).Seconds()})
	return nil
}

// What a replica publishes of itself.
type published struct {
	Name       string `json:"name"`
	Address    string `json:"address"`
	Floor      uint64 `json:"floor"`
	Checkpoint int64  `json:"checkpoint"`
}

// BeginFromAnother begins with the checkpoint of another replica, as soon as one has a newer one. It may be that the
// other was killed, or that its disk is damaged: then the next one is asked.
func (r *replica) beginFromAnother(ctx context.Context) {
	for ; ctx.Err() == nil; wait(ctx, pause) {
		others, err := r.etcd.Get(ctx, "replica/", clientv3.WithPrefix())
		for at := 0; err == nil && at < len(others.Kvs); at++ {
			var other published
			if json.Unmarshal(others.Kvs[at].Value, &other) == nil && other.Checkpoint > r.revision {
				err := r.fetch(ctx, other.Address)
				if err == nil {
					return
				}
				log.Printf("no checkpoint of %s: %v", other.Name, err)
			}
		}
	}
}

// Fetch begins with the checkpoint of a replica, which may take any time as long as bytes of it come.
func (r *replica) fetch(ctx context.Context, address string) error {
	ctx, cancel := context.WithCancel(ctx)
	defer cancel()
	asked, err := http.NewRequestWithContext(ctx, http.MethodGet, "http://"+address+"/checkpoint", nil)
	if err != nil {
		return err
	}
	silent := time.AfterFunc(silence, cancel)
	defer silent.Stop()
	answer, err := http.DefaultClient.Do(asked)
	if err != nil {
		return err
	}
	defer answer.Body.Close()
	if answer.StatusCode != http.StatusOK {
		return errors.New(answer.Status)
	}
	return r.begin("another replica", awaited{answer.Body, silent})
}

// An awaited reader has some time for each read.
type awaited struct {
	io.Reader
	silent *time.Timer
}

func (a awaited) Read(to []byte) (int, error) {
	a.silent.Reset(silence)
	return a.Reader.Read(to)
}

// KeepUp publishes the floor and the oldest checkpoint, vacuums to the threshold, and makes checkpoints.
func (r *replica) keepUp(ctx context.Context, address string, every time.Duration) error {
	go r.keepPublished(ctx, address)
	saved := time.Now()
	for ; ctx.Err() == nil; wait(ctx, pause) {
		if err := r.vacuum(ctx); err != nil {
			return err
		}
		if time.Since(saved) >= every {
			if err := r.save(); err != nil {
				log.Print("a checkpoint was not saved: ", err) // it goes on with those that it has, and tries again
			}
			saved = time.Now()
		}
	}
	return ctx.Err()
}

// KeepPublished publishes beside the rest of the upkeep: a vacuum, or a checkpoint, may take longer than the lease.
func (r *replica) keepPublished(ctx context.Context, address string) {
	for ; ctx.Err() == nil; wait(ctx, pause) {
		r.publish(ctx, address)
	}
}

// Publish puts where the replica is, for as long as the lease is kept alive. Where etcd does not answer, the next round
// tries again.
func (r *replica) publish(ctx context.Context, address string) {
	limited, cancel := context.WithTimeout(ctx, patience)
	defer cancel()
	if _, err := r.etcd.KeepAliveOnce(limited, r.lease); r.lease == 0 || err != nil {
		granted, err := r.etcd.Grant(limited, lease)
		if err != nil {
			return
		}
		r.lease = granted.ID
	}
	floor := r.state()["floor"].(uint64)
	text, _ := json.Marshal(published{r.name, address, floor, r.checkpoints.oldest()})
	r.etcd.Put(limited, "replica/"+r.name, string(text), clientv3.WithLease(r.lease))
}

// Vacuum vacuums to the threshold, if the floor has reached it, unless a certificate at a later stamp was asked for.
func (r *replica) vacuum(ctx context.Context) error {
	store, threshold := r.now()
	floor, _ := store.Floor()
	if horizon, _ := store.Horizon(); horizon >= threshold || threshold > floor {
		return nil
	}
	_, err := store.VacuumInParts(ctx, threshold, partKeys)
	if errors.Is(err, hlcstore.ErrBelowHorizon) {
		return nil
	}
	return err
}

// Now returns the store, and the retention threshold that it has come to.
func (r *replica) now() (*hlcstore.Store, hlcstore.Stamp) {
	r.fields.RLock()
	defer r.fields.RUnlock()
	return r.store, r.threshold
}

// State says how far the replica is, between two entries. A stamp is a word of 64 bits.
func (r *replica) state() map[string]any {
	r.between.RLock()
	defer r.between.RUnlock()
	floor, _ := r.store.Floor()
	horizon, _ := r.store.Horizon()
	rows, _ := r.store.Rows()
	links, nodes := [][3]any{}, uint64(0)
	for nodes, _ = r.store.Nodes(); uint64(len(links)) < nodes; {
		link, _ := r.store.Link(uint16(len(links)))
		links = append(links, [3]any{link.Next, uint64(link.Head), link.Retired})
	}
	own := map[string]any{"range": 0, "live": true, "revision": r.revision, "rows": rows, "links": links}
	return map[string]any{
		"program": "replica", "name": r.name, "revision": r.revision, "floor": uint64(floor), "rows": rows,
		"horizon": uint64(horizon), "threshold": uint64(r.threshold), "checkpoint": r.checkpoints.oldest(),
		"links": links, "ranges": []any{own},
	}
}

// Save makes a checkpoint of the store between two entries: a copy in memory, and of that a file. So neither the log,
// nor reads, which open snapshots, wait for the disk.
func (r *replica) save() error {
	r.saving.Lock()
	defer r.saving.Unlock()
	revision, saved, err := r.copyOfStore()
	if err != nil {
		return err
	}
	return r.checkpoints.save(revision, func(to io.Writer) error {
		_, err := saved.WriteTo(to)
		return err
	})
}

func (r *replica) copyOfStore() (int64, *bytes.Buffer, error) {
	r.between.RLock()
	defer r.between.RUnlock()
	saved := new(bytes.Buffer)
	_, err := r.store.Checkpoint(saved, uint64(r.revision))
	return r.revision, saved, err
}

// wait waits for as long, or until the context ends.
func wait(ctx context.Context, duration time.Duration) {
	select {
	case <-ctx.Done():
	case <-time.After(duration):
	}
}
