package hlcstore_test

import (
	"errors"
	"fmt"
	"math/rand"
	"strings"
	"sync"
	"testing"
	"time"

	"hlcstore"
)

// An issuedModel has all writes that machines issued, by key. Each is added before its store can accept it; so at a
// cut it has all writes at or below the cut.
type issuedModel struct {
	mu     sync.Mutex
	writes map[string][]hlcstore.Item
}

func (m *issuedModel) add(item hlcstore.Item) {
	m.mu.Lock()
	defer m.mu.Unlock()
	for _, write := range writesOf(item) {
		m.writes[write.Key] = append(m.writes[write.Key], write)
	}
}

// pairs returns what a snapshot at a cut has, as pairsOf does.
func (m *issuedModel) pairs(cut hlcstore.Stamp) string {
	m.mu.Lock()
	defer m.mu.Unlock()
	values := map[string]string{}
	for key, writes := range m.writes {
		newest := hlcstore.Item{Kind: hlcstore.Delete}
		for _, write := range writes {
			later := write.Stamp > newest.Stamp || write.Stamp == newest.Stamp && write.Node > newest.Node
			if write.Stamp <= cut && later {
				newest = write
			}
		}
		if newest.Kind == hlcstore.Write {
			values[key] = newest.Value
		}
	}
	var all []string
	for _, key := range between(values, "", "") {
		all = append(all, key+"="+values[key])
	}
	return strings.Join(all, " ")
}

// A letter is a message of a machine: its stamp, and how many turns the machine had done.
type letter struct {
	sender int
	turn   int
	stamp  hlcstore.Stamp
}

// A town has machines that write to stores at random, and send each other messages.
type town struct {
	t      *testing.T
	r      *hlcstore.Ranges
	model  issuedModel
	boxes  []chan letter
	crowd  *crowd
	began  time.Time
	opened sync.Map // the snapshots, with what they answered first
}

// accept adds a write to the model before the store has it.
func (w *town) accept(issued hlcstore.Routed, err error) {
	if err == nil {
		w.model.add(issued.Item)
		err = w.r.Accept(issued.Store, issued.Item)
	}
	if err != nil {
		w.t.Error(err)
	}
}

// work is a turn of a machine. It says that the turn began before it writes anything else, and tells each receiver; who
// receives that writes it down.
func (w *town) work(m *hlcstore.Machine, random *rand.Rand, turn int) {
	id := int(m.ID())
	clock := uint64(time.Since(w.began).Microseconds()) + uint64(random.Intn(50))
	w.accept(m.Write(clock, []byte(fmt.Sprint("began", id)), []byte(fmt.Sprint(turn))))
	key := []byte(fmt.Sprint("key", random.Intn(20)))
	switch random.Intn(8) {
	case 0, 1:
		w.accept(m.Delete(clock, key))
	case 2, 3, 4:
		w.accept(m.WriteBatch(clock, w.batch(random, key, []byte(fmt.Sprint(id, "x", turn)))))
	default:
		w.accept(m.Write(clock, key, []byte(fmt.Sprint(id, "x", turn))))
	}
	select {
	case w.boxes[random.Intn(len(w.boxes))] <- letter{id, turn, must(m.Send(clock))}:
	default:
	}
	select {
	case got := <-w.boxes[id]:
		must(m.Receive(got.stamp, clock))
		w.accept(m.Write(clock, []byte(fmt.Sprintf("told%d,%d", got.sender, id)), []byte(fmt.Sprint(got.turn))))
	default:
	}
	for _, report := range must(m.ReportAll(clock)) {
		w.accept(report, nil)
	}
}

// batch returns writes and deletions of this key and of some others of its store.
func (w *town) batch(random *rand.Rand, key, value []byte) *hlcstore.Batch {
	batch := new(hlcstore.Batch)
	for i := 0; i < 20; i++ {
		other := []byte(fmt.Sprint("key", i))
		if w.r.StoreOf(other) != w.r.StoreOf(key) || random.Intn(3) > 0 && string(other) != string(key) {
			continue
		}
		put := func() error { return batch.Write(other, value) }
		if random.Intn(5) == 0 {
			put = func() error { return batch.Delete(other) }
		}
		if err := put(); err != nil {
			w.t.Error(err)
		}
	}
	return batch
}

// look compares a new snapshot with the model, and all that it opened before with what they answered then.
func (w *town) look(n int) {
	snapshot, err := w.r.Snapshot()
	if err != nil {
		w.t.Error(err)
		return
	}
	got, want := pairsOf(w.t, snapshot, "", ""), w.model.pairs(snapshot.Stamp())
	if got != want {
		w.t.Errorf("at %v\n got %s\nwant %s", snapshot.Stamp(), got, want)
	}
	w.lookAtCauses(snapshot)
	w.opened.Store(snapshot, got)
	if n%20 != 0 {
		return
	}
	w.opened.Range(func(key, was any) bool {
		old := key.(*hlcstore.RangesSnapshot)
		if _, mine := w.opened.LoadAndDelete(old); mine {
			if now := pairsOf(w.t, old, "", ""); now != was {
				w.t.Errorf("at %v\n got %s\nonce %s", old.Stamp(), now, was)
			}
			if err := old.Close(); err != nil {
				w.t.Error(err)
			}
		}
		return true
	})
}

// lookAtCauses checks that whoever was told of a turn was told of one that began.
func (w *town) lookAtCauses(snapshot *hlcstore.RangesSnapshot) {
	for sender := range w.boxes {
		began := 0
		if value, err := snapshot.Get([]byte(fmt.Sprint("began", sender))); err == nil {
			fmt.Sscan(string(value), &began)
		}
		for receiver := range w.boxes {
			told := 0
			if value, err := snapshot.Get([]byte(fmt.Sprintf("told%d,%d", sender, receiver))); err == nil {
				fmt.Sscan(string(value), &told)
			}
			if told > began {
				w.t.Errorf("at %v machine %d was told of turn %d of %d, of which %d is the last", snapshot.Stamp(),
					receiver, told, sender, began)
			}
		}
	}
}

func TestSnapshotsBesideMachinesAndVacuums(t *testing.T) {
	for name, division := range map[string]hlcstore.Division{
		"by keys": must(hlcstore.DivideByKeys("key", "key15", "key7", "told")),
		"by hash": must(hlcstore.DivideByHash(7)),
		"one":     {},
	} {
		t.Run(name, func(t *testing.T) { playTown(t, division) })
	}
}

func playTown(t *testing.T, division hlcstore.Division) {
	const machines = 3
	w := &town{t: t, r: openRanges(t, division, machines), crowd: newCrowd(), began: time.Now()}
	w.model.writes = map[string][]hlcstore.Item{}
	for id := 0; id < machines+1; id++ {
		w.boxes = append(w.boxes, make(chan letter, 2))
	}
	work := func(m *hlcstore.Machine) {
		random := rand.New(rand.NewSource(int64(m.ID())))
		w.crowd.run(func(turn int) {
			w.work(m, random, turn)
			time.Sleep(time.Millisecond) // so that the model stays small
		})
	}
	for id := uint16(0); id < machines; id++ {
		work(hlcstore.NewMachine(division, id))
	}
	for reader := 0; reader < 2; reader++ {
		w.crowd.run(w.look)
	}
	w.crowd.run(func(int) {
		if _, err := w.r.VacuumTo(must(w.r.Cut())); err != nil {
			t.Error(err)
		}
	})
	work(must(w.r.Join()))
	w.crowd.group.Wait()
	w.look(20)
	w.look(20) // closes the last one
	noneOpen(t, w.r)
	rows := must(w.r.Rows())
	if vacuumed := must(w.r.VacuumTo(hlcstore.MaxStamp)); vacuumed.Kept > rows {
		t.Error(vacuumed, rows)
	}
}

// A vacuum of each new cut goes on while snapshots open.
func TestSnapshotsBesideVacuumsOfEachCut(t *testing.T) {
	division := must(hlcstore.DivideByHash(4))
	r := openRanges(t, division, 1)
	m := hlcstore.NewMachine(division, 0)
	crowd, opened := newCrowd(), 0
	crowd.run(func(n int) { ok(t, r.ReportAll(m, uint64(n))) })
	crowd.run(func(int) {
		if _, err := r.VacuumTo(hlcstore.MaxStamp); err != nil {
			t.Error(err)
		}
	})
	crowd.run(func(int) {
		snapshot, err := r.Snapshot()
		if err == nil {
			opened++
			err = snapshot.Close()
		}
		if err != nil && !errors.Is(err, hlcstore.ErrBelowHorizon) {
			t.Error(err)
		}
	})
	crowd.group.Wait()
	noneOpen(t, r)
	if opened == 0 {
		t.Error("no snapshot was opened")
	}
}
