package hlcstore_test

import (
	"bytes"
	"context"
	"crypto/sha256"
	"errors"
	"fmt"
	"math/rand"
	"sort"
	"strings"
	"testing"

	"hlcstore"
)

// A model is what a store represents, as slowly as that is defined: a list of all writes that were ever accepted.
type model struct {
	writes    []hlcstore.Item
	links     []hlcstore.Link
	snapshots map[uint64]hlcstore.Stamp
	horizon   hlcstore.Stamp
}

func newModel(nodes uint16) *model {
	return &model{links: make([]hlcstore.Link, nodes), snapshots: map[uint64]hlcstore.Stamp{}}
}

func (m *model) accept(item hlcstore.Item) {
	link := &m.links[item.Node]
	link.Next, link.Head = item.Number+1, item.Stamp
	link.Retired = item.Kind == hlcstore.Retire
	m.writes = append(m.writes, writesOf(item)...)
}

// writesOf returns an item that is a write or a deletion, or for each of those of a batch such an item.
func writesOf(item hlcstore.Item) []hlcstore.Item {
	switch item.Kind {
	case hlcstore.Write, hlcstore.Delete:
		return []hlcstore.Item{item}
	case hlcstore.WriteBatch:
		var writes []hlcstore.Item
		for _, write := range must(item.Batch()).Writes() {
			one := item
			one.Kind, one.Key, one.Value, one.Writes = write.Kind, write.Key, write.Value, ""
			writes = append(writes, one)
		}
		return writes
	}
	return nil
}

// floor returns the least head of the nodes that have not retired, of which there is one, and the first such node.
func (m *model) floor() (hlcstore.Stamp, uint16) {
	floor, node := hlcstore.MaxStamp, -1
	for i, link := range m.links {
		if !link.Retired && (node < 0 || link.Head < floor) {
			floor, node = link.Head, i
		}
	}
	return floor, uint16(node)
}

// newest returns the newest write of a key at or below a stamp.
func (m *model) newest(key string, stamp hlcstore.Stamp) (hlcstore.Item, bool) {
	var newest hlcstore.Item
	found := false
	for _, write := range m.writes {
		later := !found || write.Stamp > newest.Stamp || write.Stamp == newest.Stamp && write.Node > newest.Node
		if write.Key == key && write.Stamp <= stamp && later {
			newest, found = write, true
		}
	}
	return newest, found
}

// list returns the values of the keys that have one at a stamp.
func (m *model) list(stamp hlcstore.Stamp) map[string]string {
	values := map[string]string{}
	for _, write := range m.writes {
		if newest, found := m.newest(write.Key, stamp); found && newest.Kind == hlcstore.Write {
			values[write.Key] = newest.Value
		}
	}
	return values
}

// between returns the keys of some values in a range, in byte order.
func between(values map[string]string, from, to string) []string {
	var keys []string
	for key := range values {
		if key >= from && (to == "" || key < to) {
			keys = append(keys, key)
		}
	}
	sort.Strings(keys)
	return keys
}

// versions returns all writes of a key above a stamp, the newest first.
func (m *model) versions(key string, above hlcstore.Stamp) []hlcstore.Item {
	var rows []hlcstore.Item
	for _, write := range m.writes {
		if write.Key == key && write.Stamp > above {
			rows = append(rows, write)
		}
	}
	sort.Slice(rows, func(i, j int) bool {
		if rows[i].Stamp != rows[j].Stamp {
			return rows[i].Stamp > rows[j].Stamp
		}
		return rows[i].Node > rows[j].Node
	})
	return rows
}

// A game plays calls on a store beside a model.
type game struct {
	t       testing.TB
	store   *hlcstore.Store
	model   *model
	nodes   []*hlcstore.Node
	waiting [][]hlcstore.Item // of each node, what the store did not accept yet
	clock   uint64
	moves   *bytes.Reader
}

// play plays the calls that some bytes spell.
func play(t testing.TB, moves []byte) {
	const nodes = 3
	g := &game{t: t, model: newModel(nodes), clock: 1, moves: bytes.NewReader(moves)}
	g.store, g.waiting = must(hlcstore.Open(nodes)), make([][]hlcstore.Item, nodes)
	for i := uint16(0); i < nodes; i++ {
		g.nodes = append(g.nodes, hlcstore.NewNode(i, 0))
	}
	for g.moves.Len() > 0 {
		g.move()
	}
	g.look()
	g.store.Close()
}

// pick returns a number below a bound, of the next byte.
func (g *game) pick(bound int) int {
	next, err := g.moves.ReadByte()
	if err != nil {
		return 0
	}
	return int(next) % bound
}

func (g *game) check(good bool, what ...any) {
	if !good {
		g.t.Helper()
		g.t.Fatal(what...)
	}
}

// wants checks that a call was made, where the code is 0, or refused for this reason.
func (g *game) wants(err error, code hlcstore.Code, word uint64) bool {
	g.t.Helper()
	var refusal *hlcstore.Error
	switch {
	case code == 0:
		g.check(err == nil, err)
	case !errors.As(err, &refusal):
		g.check(false, "got", err, "want", code)
	default:
		g.check(refusal.Code == code && refusal.Word == word, "got", err, "want", code, word)
	}
	return code == 0
}

func (g *game) move() {
	switch g.pick(21) {
	case 0, 1, 2, 3:
		g.issue(func(node *hlcstore.Node, key []byte) (hlcstore.Item, error) {
			return node.Write(g.clock, key, []byte(strings.Repeat("v", g.pick(256))))
		})
	case 4:
		g.issue(func(node *hlcstore.Node, key []byte) (hlcstore.Item, error) { return node.Delete(g.clock, key) })
	case 5:
		g.issue(func(node *hlcstore.Node, _ []byte) (hlcstore.Item, error) { return node.Report(g.clock) })
	case 6, 7:
		g.deliver(g.acceptEach)
	case 8:
		g.deliver(g.acceptAll)
	case 9:
		g.deliver(g.acceptLog)
	case 10:
		g.again()
	case 11:
		g.openSnapshot()
	case 12:
		g.closeSnapshot()
	case 13:
		g.vacuum()
	case 14:
		g.restore()
	case 15:
		g.join()
	case 16:
		g.retire()
	case 17:
		g.look()
	case 18, 19, 20:
		g.issue(func(node *hlcstore.Node, key []byte) (hlcstore.Item, error) {
			return node.WriteBatch(g.clock, g.batch(key))
		})
	}
}

// batch returns writes and deletions of this key and of some others.
func (g *game) batch(key []byte) *hlcstore.Batch {
	batch := new(hlcstore.Batch)
	for i, chosen := 0, g.pick(256)|g.pick(256)<<8; i < 12; i++ {
		other := []byte(fmt.Sprint("k", i))
		if chosen>>i&1 == 0 && !bytes.Equal(other, key) {
			continue
		}
		if value := g.pick(256); value%4 == 0 {
			g.check(batch.Delete(other) == nil, i)
		} else {
			g.check(batch.Write(other, []byte(strings.Repeat("b", value))) == nil, i)
		}
	}
	return batch
}

func (g *game) issue(issue func(*hlcstore.Node, []byte) (hlcstore.Item, error)) {
	i := g.pick(len(g.nodes))
	g.clock += uint64(g.pick(3))
	item, err := issue(g.nodes[i], []byte(fmt.Sprint("k", g.pick(12))))
	if g.nodes[i].Retired() {
		g.wants(err, hlcstore.ErrRetired, 0)
		return
	}
	g.check(err == nil, err)
	g.waiting[i] = append(g.waiting[i], item)
}

// deliver lets the store accept the first items of a node.
func (g *game) deliver(accept func([]hlcstore.Item)) {
	i := g.pick(len(g.nodes))
	many := g.pick(len(g.waiting[i]) + 1)
	items := g.waiting[i][:many]
	accept(items)
	g.waiting[i] = g.waiting[i][many:]
	for _, item := range items {
		g.model.accept(item)
	}
}

func (g *game) acceptEach(items []hlcstore.Item) {
	for _, item := range items {
		g.check(g.store.Check(item) == nil, item)
		g.check(g.store.Accept(item) == nil, item)
	}
}

func (g *game) acceptAll(items []hlcstore.Item) {
	accepted, err := g.store.AcceptAll(items)
	g.check(err == nil && accepted == len(items), accepted, err)
}

func (g *game) acceptLog(items []hlcstore.Item) {
	var log []byte
	for _, item := range items {
		log = must(item.AppendTo(log))
	}
	for i := 0; i < 2; i++ {
		applied, err := g.store.ApplyRecords(log)
		g.check(err == nil && applied.Records == len(items) && applied.Bytes == len(log), applied, err)
	}
}

// again offers the store an item that it accepted before.
func (g *game) again() {
	if len(g.model.writes) == 0 {
		return
	}
	item := g.model.writes[g.pick(len(g.model.writes))]
	if link := g.model.links[item.Node]; link.Retired {
		g.wants(g.store.Accept(item), hlcstore.ErrRetired, 0)
	} else {
		g.wants(g.store.Accept(item), hlcstore.ErrNotNext, link.Next)
	}
}

// stamp returns a stamp about the clock, the floor and the horizon.
func (g *game) stamp() hlcstore.Stamp {
	floor, _ := g.model.floor()
	switch g.pick(4) {
	case 0:
		return floor + hlcstore.Stamp(g.pick(2))
	case 1:
		return g.model.horizon - hlcstore.Stamp(g.pick(2))
	default:
		return floor - floor/256*hlcstore.Stamp(g.pick(256))
	}
}

// bounded returns why a stamp is refused that has to lie between the horizon and the floor.
func (g *game) bounded(stamp hlcstore.Stamp) (hlcstore.Code, uint64) {
	floor, _ := g.model.floor()
	switch {
	case stamp > floor:
		return hlcstore.ErrAboveFloor, uint64(floor)
	case stamp < g.model.horizon:
		return hlcstore.ErrBelowHorizon, uint64(g.model.horizon)
	}
	return 0, 0
}

func (g *game) openSnapshot() {
	stamp := g.stamp()
	code, word := g.bounded(stamp)
	snapshot, err := g.store.SnapshotAt(stamp)
	if g.wants(err, code, word) {
		g.model.snapshots[snapshot.Keep()] = stamp
	}
}

func (g *game) closeSnapshot() {
	id := uint64(g.pick(len(g.model.snapshots)*2 + 2))
	stamp, open := g.model.snapshots[id]
	closed, err := g.store.CloseSnapshot(id)
	if !open {
		g.wants(err, hlcstore.ErrNoSnapshot, 0)
		return
	}
	g.check(err == nil && closed == stamp, closed, err)
	delete(g.model.snapshots, id)
}

func (g *game) vacuum() {
	stamp, keys := g.stamp(), g.pick(5)
	code, word := g.bounded(stamp)
	g.wants(g.store.CheckVacuum(stamp), code, word)
	var err error
	if keys == 0 {
		_, err = g.store.VacuumTo(stamp)
	} else {
		_, err = g.store.VacuumInParts(context.Background(), stamp, keys)
	}
	if !g.wants(err, code, word) {
		return
	}
	g.model.horizon = stamp
	var certificate bytes.Buffer
	certified, err := g.store.Certificate(&certificate, stamp)
	g.check(err == nil, err)
	checked, err := hlcstore.CheckCertificate(certificate.Bytes())
	g.check(err == nil && checked == certified, checked, certified, err)
}

// restore goes on with a store that is made of a checkpoint.
func (g *game) restore() {
	tag := uint64(g.pick(256))
	restored, saved, err := hlcstore.Restore(bytes.NewReader(checkpointOf(g.t, g.store, tag)))
	g.check(err == nil && saved == tag, saved, err)
	g.store.Close()
	g.store = restored
}

func (g *game) join() {
	if len(g.nodes) >= 8 {
		return
	}
	start, _ := g.model.floor()
	start += hlcstore.Stamp(g.pick(2))
	node, err := g.store.JoinAt(start)
	g.check(err == nil && *node == *hlcstore.NewNode(uint16(len(g.nodes)), start), node, err)
	g.nodes, g.waiting = append(g.nodes, node), append(g.waiting, nil)
	g.model.links = append(g.model.links, hlcstore.Link{Head: start})
}

// retire lets a node retire, but not the first one.
func (g *game) retire() {
	i := g.pick(len(g.nodes))
	if i == 0 || g.nodes[i].Retired() {
		return
	}
	last, err := g.nodes[i].Retire(g.clock)
	g.check(err == nil, err)
	g.waiting[i] = append(g.waiting[i], last)
}

// look compares all that can be asked.
func (g *game) look() {
	floor, node := g.model.floor()
	g.check(must(g.store.Floor()) == floor && must(g.store.FloorNode()) == node, "the floor is not", floor, node)
	g.check(must(g.store.Horizon()) == g.model.horizon, "the horizon is not", g.model.horizon)
	g.check(must(g.store.Nodes()) == uint64(len(g.nodes)), "there are not so many nodes:", len(g.nodes))
	for i, link := range g.model.links {
		g.check(must(g.store.Link(uint16(i))) == link, "the link is not", link)
	}
	open := must(g.store.Snapshots())
	g.check(len(open) == len(g.model.snapshots), open, g.model.snapshots)
	for _, snapshot := range open {
		g.check(g.model.snapshots[snapshot.ID] == snapshot.Stamp, snapshot)
		g.lookAt(must(g.store.SnapshotByID(snapshot.ID)))
	}
	if len(open) > 1 {
		g.lookBetween(must(g.store.SnapshotByID(open[0].ID)), must(g.store.SnapshotByID(open[len(open)-1].ID)))
	}
	for i := 0; i < 12; i++ {
		g.lookAtVersions(fmt.Sprint("k", i))
	}
}

func (g *game) lookAt(snapshot *hlcstore.Snapshot) {
	values := g.model.list(snapshot.Stamp())
	for _, bounds := range [][2]string{{"", ""}, {"k1", "k3"}, {"k10", ""}, {"k5", "k2"}} {
		from, to := []byte(bounds[0]), []byte(bounds[1])
		wanted := between(values, bounds[0], bounds[1])
		keys, listedValues := entries(g.t, snapshot.Range(from, to))
		alone, _ := entries(g.t, snapshot.Keys(from, to))
		back, backValues := entries(g.t, snapshot.RangeBack(from, to))
		g.check(fmt.Sprint(keys) == fmt.Sprint(wanted), keys, wanted)
		g.check(fmt.Sprint(alone) == fmt.Sprint(wanted), alone, wanted)
		for i, key := range wanted {
			last := len(wanted) - 1 - i
			g.check(listedValues[i] == values[key] && back[last] == key && backValues[last] == values[key], key)
		}
		g.check(len(back) == len(wanted), back)
		g.check(must(snapshot.Count(from, to)) == uint64(len(wanted)), "the count is not", len(wanted))
		g.check(must(snapshot.Digest(from, to)) == sha256.Sum256(listed(keys, listedValues)), "another digest")
	}
	g.check(len(must(snapshot.List())) == len(values), "the list has not so many pairs:", len(values))
	g.lookAtKeys(snapshot, values)
}

func (g *game) lookAtKeys(snapshot *hlcstore.Snapshot, values map[string]string) {
	var keys [][]byte
	for i := 0; i < 13; i++ {
		keys = append(keys, []byte(fmt.Sprint("k", i)))
	}
	many := must(snapshot.GetMany(keys))
	for i, key := range keys {
		want, has := values[string(key)]
		got, err := snapshot.Get(key)
		g.check(has == (err == nil) && has == must(snapshot.Has(key)) && has == (many[i] != nil), string(key), err)
		g.check(string(got) == want && string(many[i]) == want, string(key), got, want)
	}
}

func (g *game) lookBetween(before, after *hlcstore.Snapshot) {
	old, values := g.model.list(before.Stamp()), g.model.list(after.Stamp())
	keys, newValues := entries(g.t, before.Changes(after, nil, nil))
	for i, key := range keys {
		g.check(newValues[i] == values[key], key)
		if value, has := values[key]; has {
			old[key] = value
		} else {
			delete(old, key)
		}
	}
	g.check(fmt.Sprint(old) == fmt.Sprint(values), old, values)
	equalBefore := g.model.list(before.Stamp())
	for _, key := range keys {
		was, had := equalBefore[key]
		is, has := values[key]
		g.check(was != is || had != has, "no change:", key)
	}
}

func (g *game) lookAtVersions(key string) {
	rows := must(g.store.Versions([]byte(key), g.model.horizon, hlcstore.MaxStamp))
	wanted := g.model.versions(key, g.model.horizon)
	g.check(len(rows) == len(wanted), rows, wanted)
	for i, row := range rows {
		want := wanted[i]
		g.check(row.Stamp == want.Stamp && row.Node == want.Node, row, want)
		g.check((row.Value != nil) == (want.Kind == hlcstore.Write) && string(row.Value) == want.Value, row, want)
	}
}

// moves returns random bytes.
func moves(seed int64, many int) []byte {
	out := make([]byte, many)
	rand.New(rand.NewSource(seed)).Read(out)
	return out
}

func TestRandomCallsBesideAModel(t *testing.T) {
	many := 1500
	if testing.Short() {
		many = 300
	}
	for seed := int64(1); seed <= 20; seed++ {
		play(t, moves(seed, many))
	}
}
