package hlcstore_test

import (
	"context"
	"errors"
	"fmt"
	"io"
	"sort"
	"strings"
	"testing"

	"hlcstore"
)

// byLetters has the keys below g, below n, below t, and the others.
var byLetters = must(hlcstore.DivideByKeys("g", "n", "t"))

// openRanges opens stores that are closed after the test.
func openRanges(t testing.TB, division hlcstore.Division, machines uint16) *hlcstore.Ranges {
	t.Helper()
	r, err := hlcstore.OpenRanges(division, machines)
	if err != nil {
		t.Fatal(err)
	}
	t.Cleanup(func() { r.Close() })
	return r
}

// write lets a machine write, and returns the stamp.
func write(t testing.TB, r *hlcstore.Ranges, m *hlcstore.Machine, reading uint64, key, value string) hlcstore.Stamp {
	t.Helper()
	stamp, err := r.Write(m, reading, []byte(key), []byte(value))
	if err != nil {
		t.Fatal(err)
	}
	return stamp
}

// pairsOf returns a range of a snapshot as text.
func pairsOf(t testing.TB, v *hlcstore.RangesSnapshot, from, to string) string {
	t.Helper()
	var all []string
	pairs := v.Range([]byte(from), []byte(to))
	for pairs.Next() {
		all = append(all, fmt.Sprintf("%s=%s", pairs.Key(), pairs.Value()))
	}
	if err := pairs.Close(); err != nil || pairs.Next() || pairs.Key() != nil || pairs.Value() != nil {
		t.Fatal(err)
	}
	return strings.Join(all, " ")
}

func TestKeysBetweenBoundaries(t *testing.T) {
	equal(t, byLetters.Stores(), 4)
	for key, store := range map[string]int{
		"": 0, "a": 0, "f\xff": 0, "g": 1, "g\x00": 1, "mz": 1, "n": 2, "s": 2, "t": 3, "zoo": 3, "\xff": 3,
	} {
		equal(t, byLetters.StoreOf([]byte(key)), store)
	}
	equal(t, hlcstore.Division{}.Stores(), 1)
	equal(t, hlcstore.Division{}.StoreOf([]byte("a")), 0)
}

func TestBoundariesAscend(t *testing.T) {
	many := make([]string, 1024)
	for i := range many {
		many[i] = fmt.Sprintf("%04d", i)
	}
	equal(t, must(hlcstore.DivideByKeys(many[:1023]...)).Stores(), 1024)
	equal(t, must(hlcstore.DivideByKeys()).Stores(), 1)
	for _, boundaries := range [][]string{{"b", "b"}, {"b", "a"}, {"a", "c", "b"}, {""}, many} {
		if _, err := hlcstore.DivideByKeys(boundaries...); !errors.Is(err, hlcstore.ErrBadDivision) {
			t.Error(boundaries[0], err)
		}
	}
	for _, stores := range []int{-1, 0, 1025} {
		if _, err := hlcstore.DivideByHash(stores); !errors.Is(err, hlcstore.ErrBadDivision) {
			t.Error(stores, err)
		}
	}
}

// The hashes are the published ones of the function.
func TestHashIsFNV1a(t *testing.T) {
	for key, sum := range map[string]uint64{
		"": 0xcbf29ce484222325, "a": 0xaf63dc4c8601ec8c, "b": 0xaf63df4c8601f1a5, "foobar": 0x85944171f73967e8,
		"\xff\x00\x00\x01": 0x6961196491cc682d,
	} {
		for _, stores := range []int{1, 2, 7, 64, 1000, 1024} {
			equal(t, must(hlcstore.DivideByHash(stores)).StoreOf([]byte(key)), int(sum%uint64(stores)))
		}
	}
}

func TestMachineHasOneClockAndNumbersInEachStore(t *testing.T) {
	m := hlcstore.NewMachine(byLetters, 3)
	equal(t, m.ID(), 3)
	equal(t, must(m.Write(5, []byte("a"), []byte("x"))), hlcstore.Routed{Store: 0, Item: hlcstore.Item{
		Node: 3, Stamp: at(5), Key: "a", Value: "x"}})
	equal(t, must(m.Delete(4, []byte("z"))), hlcstore.Routed{Store: 3, Item: hlcstore.Item{
		Kind: hlcstore.Delete, Node: 3, Stamp: at(5) + 1, Key: "z"}})
	equal(t, must(m.Write(5, []byte("b"), nil)), hlcstore.Routed{Store: 0, Item: hlcstore.Item{
		Node: 3, Number: 1, Stamp: at(5) + 2, Key: "b"}})
	equal(t, must(m.Send(6)), at(6))
	equal(t, must(m.Receive(at(9), 6)), at(9)+1)
	equal(t, must(m.Observe(at(9), 20)), at(20))
	equal(t, m.Last(), at(20))
	reports := must(m.ReportAll(20))
	for store, number := range []uint64{2, 0, 0, 1} {
		equal(t, reports[store], hlcstore.Routed{Store: store, Item: hlcstore.Item{
			Kind: hlcstore.Report, Node: 3, Number: number, Stamp: at(20) + hlcstore.Stamp(store) + 1}})
	}
	last := must(m.RetireAll(30))
	equal(t, len(last), 4)
	equal(t, last[3].Item.Kind, hlcstore.Retire)
	for _, err := range []error{
		second(m.Write(31, []byte("a"), nil)), second(m.Send(31)), second(m.ReportAll(31)), second(m.RetireAll(31)),
	} {
		refused(t, err, hlcstore.ErrRetired, 0)
	}
	equal(t, m.Last(), at(30)+3)
}

// The counters of three stores fit, that of the fourth does not.
func TestRefusedMachineIsAsItWas(t *testing.T) {
	r := openRanges(t, byLetters, 1)
	full := hlcstore.MustStamp(5, 65535)
	m := must(r.Machine(0, full-3))
	_, err := m.ReportAll(5)
	refused(t, err, hlcstore.ErrCounterFull, uint64(full))
	equal(t, m.Last(), full-3)
	_, err = m.Write(1<<48, []byte("a"), nil)
	refused(t, err, hlcstore.ErrReadingTooLarge, 0)
	_, err = m.Write(6, nil, nil)
	refused(t, err, hlcstore.ErrBadKey, 0)
	equal(t, m.Last(), full-3)
	for store, report := range must(m.ReportAll(6)) {
		equal(t, report.Item.Number, 0)
		equal(t, report.Item.Stamp, at(6)+hlcstore.Stamp(store))
	}
}

func TestItemOfAnotherStoreIsRefused(t *testing.T) {
	r := openRanges(t, byLetters, 1)
	m := hlcstore.NewMachine(byLetters, 0)
	write, report := must(m.Write(5, []byte("g"), nil)), must(m.ReportAll(6))
	equal(t, write.Store, 1)
	for _, store := range []int{-1, 0, 2, 3, 4} {
		if err := r.Accept(store, write.Item); !errors.Is(err, hlcstore.ErrWrongStore) {
			t.Error(store, err)
		}
	}
	deletion := hlcstore.Item{Kind: hlcstore.Delete, Stamp: at(5), Key: "g"}
	if err := r.Accept(0, deletion); !errors.Is(err, hlcstore.ErrWrongStore) {
		t.Error(err)
	}
	for _, err := range []error{r.Accept(4, report[3].Item), second(r.Floor(4)), second(r.Link(-1, 0))} {
		if !errors.Is(err, hlcstore.ErrWrongStore) {
			t.Error(err)
		}
	}
	for store := 0; store < 4; store++ {
		equal(t, must(r.Link(store, 0)), hlcstore.Link{})
	}
	equal(t, must(r.Rows()), 0)
	refused(t, r.Accept(1, report[1].Item), hlcstore.ErrNotNext, 0)
	ok(t, r.Accept(1, write.Item))
	equal(t, must(r.Rows()), 1)
	equal(t, must(r.Floor(1)), at(5))
}

// Of a machine whose item got lost, each later item in the same store is refused.
func TestMachineIsAsItWasAfterARefusedAcceptance(t *testing.T) {
	r := openRanges(t, byLetters, 1)
	m := hlcstore.NewMachine(byLetters, 0)
	lost := must(m.Write(5, []byte("h"), nil))
	refused(t, second(r.Write(m, 6, []byte("i"), nil)), hlcstore.ErrNotNext, 0)
	refused(t, second(r.Delete(m, 6, []byte("i"))), hlcstore.ErrNotNext, 0)
	equal(t, m.Last(), at(5))
	refused(t, r.ReportAll(m, 7), hlcstore.ErrNotNext, 0)
	equal(t, m.Last(), at(7))
	equal(t, must(r.Floor(0)), at(7))
	equal(t, must(r.Floor(2)), 0)
	ok(t, r.Accept(lost.Store, lost.Item))
	equal(t, write(t, r, m, 8, "i", ""), at(8))
	equal(t, must(r.Link(1, 0)), hlcstore.Link{Next: 2, Head: at(8)})
	ok(t, r.RetireAll(m, 9))
	refused(t, r.RetireAll(m, 10), hlcstore.ErrRetired, 0)
	other := hlcstore.NewMachine(hlcstore.Division{}, 0)
	if _, err := r.Write(other, 9, []byte("a"), nil); !errors.Is(err, hlcstore.ErrWrongStore) {
		t.Error(err)
	}
}

func TestCutIsTheLeastFloor(t *testing.T) {
	r := openRanges(t, byLetters, 2)
	first, other := hlcstore.NewMachine(byLetters, 0), hlcstore.NewMachine(byLetters, 1)
	ok(t, r.ReportAll(first, 20))
	ok(t, r.ReportAll(other, 30))
	for store := 0; store < 4; store++ {
		equal(t, must(r.Floor(store)), at(20)+hlcstore.Stamp(store))
	}
	equal(t, must(r.Cut()), at(20))
	write(t, r, first, 40, "a", "x")
	equal(t, must(r.Cut()), at(20)+1)
	_, err := r.SnapshotAt(at(20) + 2)
	refused(t, err, hlcstore.ErrAboveFloor, uint64(at(20)+1))
	snapshot := must(r.SnapshotAt(at(20) + 1))
	equal(t, snapshot.Stamp(), at(20)+1)
	equal(t, must(snapshot.Count(nil, nil)), 0)
	ok(t, snapshot.Close())
}

// written returns stores with a value for each letter, written in turn by two machines.
func written(t *testing.T, division hlcstore.Division) (*hlcstore.Ranges, [2]*hlcstore.Machine) {
	r := openRanges(t, division, 2)
	machines := [2]*hlcstore.Machine{hlcstore.NewMachine(division, 0), hlcstore.NewMachine(division, 1)}
	for i := 0; i < 26; i++ {
		letter := string(rune('a' + i))
		write(t, r, machines[i%2], uint64(10+i), letter, strings.ToUpper(letter))
	}
	for _, m := range machines {
		ok(t, r.ReportAll(m, 50))
	}
	return r, machines
}

func TestRangesAreInKeyOrder(t *testing.T) {
	for _, division := range []hlcstore.Division{
		byLetters, {}, must(hlcstore.DivideByHash(1)), must(hlcstore.DivideByHash(5)), must(hlcstore.DivideByHash(64)),
	} {
		r, _ := written(t, division)
		snapshot := must(r.Snapshot())
		for _, bounds := range [][2]string{
			{"", ""}, {"f", "h"}, {"g", "n"}, {"g", ""}, {"", "n"}, {"n", "g"}, {"z", "zz"},
		} {
			var want []string
			for letter := 'a'; letter <= 'z'; letter++ {
				if key := string(letter); key >= bounds[0] && (bounds[1] == "" || key < bounds[1]) {
					want = append(want, key+"="+strings.ToUpper(key))
				}
			}
			equal(t, pairsOf(t, snapshot, bounds[0], bounds[1]), strings.Join(want, " "))
			equal(t, must(snapshot.Count([]byte(bounds[0]), []byte(bounds[1]))), uint64(len(want)))
		}
		equal(t, string(must(snapshot.Get([]byte("q")))), "Q")
		equal(t, string(must(snapshot.GetTo([]byte("=>"), []byte("t")))), "=>T")
		equal(t, must(snapshot.Has([]byte("g"))), true)
		equal(t, must(snapshot.Has([]byte("gg"))), false)
		_, err := snapshot.Get([]byte("gg"))
		refused(t, err, hlcstore.ErrNoValue, 0)
		ok(t, snapshot.Close())
	}
}

// The values are longer than a piece, and each store has several pieces.
func TestMergedPieces(t *testing.T) {
	division := must(hlcstore.DivideByHash(3))
	r := openRanges(t, division, 1)
	m := hlcstore.NewMachine(division, 0)
	var keys []string
	for i := 0; i < 300; i++ {
		key := fmt.Sprint("key", i*7919%300)
		keys = append(keys, key)
		write(t, r, m, uint64(i+1), key, strings.Repeat(key, i%40*100))
	}
	ok(t, r.ReportAll(m, 1000))
	sort.Strings(keys)
	snapshot := must(r.Snapshot())
	pairs := snapshot.Range(nil, nil)
	for _, key := range keys {
		equal(t, pairs.Next(), true)
		equal(t, string(pairs.Key()), key)
		value := string(pairs.Value())
		equal(t, value, strings.Repeat(key, len(value)/len(key)))
	}
	equal(t, pairs.Next(), false)
	ok(t, pairs.Close())
	ok(t, snapshot.Close())
}

func TestClosedRangesAreRefused(t *testing.T) {
	r, _ := written(t, must(hlcstore.DivideByHash(4)))
	snapshot := must(r.Snapshot())
	pairs := snapshot.Range(nil, nil)
	ok(t, snapshot.Close())
	ok(t, snapshot.Close())
	equal(t, pairs.Next(), false)
	for _, err := range []error{
		pairs.Err(), second(snapshot.Get([]byte("a"))), second(snapshot.Has([]byte("a"))),
		second(snapshot.Count(nil, nil)),
	} {
		refused(t, err, hlcstore.ErrNoSnapshot, 0)
	}
	ok(t, r.Close())
	for _, err := range []error{
		second(r.Cut()), second(r.Snapshot()), second(r.SnapshotAt(0)), second(r.Join()), second(r.Rows()),
		second(r.VacuumTo(0)), second(r.Checkpoint()), second(r.Machine(0, 0)), second(snapshot.Has([]byte("a"))),
		r.Accept(0, hlcstore.Item{Kind: hlcstore.Report}),
	} {
		refused(t, err, hlcstore.ErrClosed, 0)
	}
	var none hlcstore.RangesSnapshot
	refused(t, second(none.Get(nil)), hlcstore.ErrClosed, 0)
	ok(t, none.Close())
}

// noneOpen checks that no store has a snapshot open.
func noneOpen(t *testing.T, r *hlcstore.Ranges) {
	t.Helper()
	for store := 0; store < r.Stores(); store++ {
		equal(t, len(must(r.StoreAt(store).Snapshots())), 0)
	}
}

func TestNothingStaysOpenWhereOneStoreRefuses(t *testing.T) {
	r, _ := written(t, byLetters)
	must(r.StoreAt(3).VacuumTo(at(40)))
	_, err := r.SnapshotAt(at(39))
	refused(t, err, hlcstore.ErrBelowHorizon, uint64(at(40)))
	noneOpen(t, r)
	for i := 0; i < 1024; i++ {
		must(r.StoreAt(2).Snapshot()).Keep()
	}
	_, err = r.Snapshot()
	refused(t, err, hlcstore.ErrTooManySnapshots, 0)
	equal(t, len(must(r.StoreAt(1).Snapshots())), 0)
}

func TestSnapshotThatAVacuumOvertakesOpensAgain(t *testing.T) {
	r, _ := written(t, byLetters)
	cuts := 0
	snapshot := must(r.SnapshotAtOneOf(func() (hlcstore.Stamp, error) {
		cut := must(r.Cut())
		if cuts++; cuts == 1 {
			must(r.VacuumTo(cut)) // by another goroutine, after this one asked for the cut
			cut -= 5
		}
		return cut, nil
	}))
	equal(t, cuts, 2)
	equal(t, snapshot.Stamp(), at(50))
	equal(t, must(snapshot.Count(nil, nil)), 26)
	ok(t, snapshot.Close())
	_, err := r.SnapshotAtOneOf(func() (hlcstore.Stamp, error) { cuts++; return at(49), nil })
	refused(t, err, hlcstore.ErrBelowHorizon, uint64(at(50)))
	equal(t, cuts, 2+8)
	noneOpen(t, r)
}

func TestVacuumIsToOneStamp(t *testing.T) {
	for _, keys := range []int{1, 3, 100} {
		r, machines := written(t, byLetters)
		for i := 0; i < 26; i++ {
			write(t, r, machines[i%2], 60, string(rune('a'+i)), "new")
		}
		for _, m := range machines {
			ok(t, r.ReportAll(m, 70))
		}
		snapshot := must(r.SnapshotAt(at(50)))
		// A row costs its key of one byte, its value of one or of three, and 10.
		all := hlcstore.Vacuumed{Stamp: at(70), Kept: 52, Bytes: 26 * (12 + 14)}
		equal(t, must(r.VacuumInParts(context.Background(), hlcstore.MaxStamp, keys)), all)
		equal(t, string(must(snapshot.Get([]byte("c")))), "C")
		ok(t, snapshot.Close())
		equal(t, must(r.VacuumTo(at(70))), hlcstore.Vacuumed{Stamp: at(70), Kept: 26, Bytes: 26 * 14, Dropped: 26})
		equal(t, must(r.Rows()), 26)
		for store := 0; store < 4; store++ {
			equal(t, must(r.StoreAt(store).Horizon()), at(70))
		}
	}
}

func TestRefusedVacuumChangesNothing(t *testing.T) {
	r, machines := written(t, byLetters)
	must(r.StoreAt(3).VacuumTo(at(40)))
	write(t, r, machines[0], 60, "a", "new")
	ok(t, r.ReportAll(machines[0], 70))
	ok(t, r.ReportAll(machines[1], 70))
	_, err := r.VacuumTo(at(39))
	refused(t, err, hlcstore.ErrBelowHorizon, uint64(at(40)))
	equal(t, must(r.StoreAt(0).Horizon()), 0)
	cancelled, cancel := context.WithCancel(context.Background())
	cancel()
	done, err := r.VacuumInParts(cancelled, at(65), 1)
	if !errors.Is(err, context.Canceled) {
		t.Error(err)
	}
	equal(t, done, hlcstore.Vacuumed{Stamp: at(65)})
	done, err = r.VacuumInParts(&asked{context.Background(), 2}, at(65), 1)
	if !errors.Is(err, context.Canceled) {
		t.Error(err)
	}
	equal(t, done, hlcstore.Vacuumed{Stamp: at(65), Kept: 2, Bytes: 14 + 12, Dropped: 1})
	equal(t, must(r.VacuumTo(at(65))).Kept, 26)
}

func TestJoinHasOneNumberEverywhere(t *testing.T) {
	r, machines := written(t, byLetters)
	ok(t, r.ReportAll(machines[0], 80))
	ok(t, r.ReportAll(machines[1], 90))
	m := must(r.Join())
	equal(t, m.ID(), 2)
	equal(t, m.Last(), at(80)+3) // the greatest floor
	for store := 0; store < 4; store++ {
		equal(t, must(r.Link(store, 2)), hlcstore.Link{Head: at(80) + 3})
	}
	equal(t, must(r.Nodes()), 3)
	equal(t, write(t, r, m, 1, "zoo", "new"), at(80)+4)
	ok(t, r.ReportAll(m, 100))
	equal(t, must(r.Cut()), at(80))
	ok(t, r.RetireAll(m, 110))
	refused(t, second(r.Machine(2, 0)), hlcstore.ErrRetired, 0)
	refused(t, second(r.Machine(3, 0)), hlcstore.ErrNoNode, 0)
}

// A join that ended in the middle, for want of memory, left the node in the first two stores.
func TestJoinGoesOn(t *testing.T) {
	r, machines := written(t, byLetters)
	must(r.StoreAt(0).JoinAt(at(60)))
	must(r.StoreAt(1).JoinAt(at(60)))
	ok(t, r.ReportAll(machines[0], 70))
	ok(t, r.ReportAll(machines[1], 70))
	equal(t, must(r.Cut()), at(60))
	refused(t, second(r.Checkpoint()), hlcstore.ErrNoNode, 0) // which RestoreRanges would refuse
	m := must(r.Join())
	equal(t, m.ID(), 2)
	equal(t, m.Last(), at(70)+3)
	ok(t, r.ReportAll(m, 80))
	equal(t, must(r.Cut()), at(70))
	equal(t, must(r.Join()).ID(), 3)
}

func TestNoStoreJoinsWhereOneIsFull(t *testing.T) {
	r := openRanges(t, byLetters, 64)
	for nodes := 64; nodes < 1024; nodes++ {
		must(r.Join())
	}
	_, err := r.Join()
	refused(t, err, hlcstore.ErrTooManyNodes, 0)
	equal(t, must(r.Nodes()), 1024)
	refused(t, second(hlcstore.OpenRanges(byLetters, 65)), hlcstore.ErrBadNodeCount, 0)
}

func TestRestoredMachineGoesOn(t *testing.T) {
	r, machines := written(t, byLetters)
	lost := must(machines[0].Write(60, []byte("a"), nil))
	restored := must(r.Machine(0, 0))
	equal(t, restored.Last(), at(50)+3)
	equal(t, must(r.Machine(0, at(61))).Last(), at(61))
	again := must(restored.Write(40, []byte("a"), []byte("new")))
	equal(t, again.Item.Number, lost.Item.Number)
	equal(t, again.Item.Stamp, at(50)+4)
	// Only two of the last items reach their stores: the others are issued again after the restart.
	for _, last := range must(machines[1].RetireAll(70))[:2] {
		ok(t, r.Accept(last.Store, last.Item))
	}
	half := must(r.Machine(1, at(75)))
	refused(t, second(half.Write(76, []byte("a"), nil)), hlcstore.ErrRetired, 0)
	equal(t, must(half.Send(76)), at(76))
	copied := *half
	rest := must(copied.RetireAll(80))
	equal(t, len(rest), 2)
	equal(t, rest[0].Store, 2)
	ok(t, r.RetireAll(half, 80))
	refused(t, second(half.Send(81)), hlcstore.ErrRetired, 0)
	ok(t, r.Accept(again.Store, again.Item))
	ok(t, r.ReportAll(restored, 90))
	equal(t, must(r.Cut()), at(90))
}

func TestRestoredRangesAnswerAlike(t *testing.T) {
	for _, division := range []hlcstore.Division{byLetters, must(hlcstore.DivideByHash(5))} {
		r, machines := written(t, division)
		snapshot := must(r.Snapshot())
		want := pairsOf(t, snapshot, "", "")
		write(t, r, machines[0], 60, "a", "above the cut")
		saved := must(r.Checkpoint())
		ok(t, snapshot.Close())
		restored := must(hlcstore.RestoreRanges(division, saved))
		equal(t, must(restored.Cut()), must(r.Cut()))
		noneOpen(t, restored)
		again := must(restored.SnapshotAt(at(50)))
		equal(t, pairsOf(t, again, "", ""), want)
		equal(t, must(restored.Rows()), 27)
		m := must(restored.Machine(0, 0))
		equal(t, m.Last(), machines[0].Last())
		write(t, restored, m, 70, "b", "new")
		ok(t, again.Close())
		ok(t, restored.Close())
	}
}

// A goroutine lets a machine join, or vacuums, when the first store is saved.
func TestCheckpointBesideOthersIsMadeAnew(t *testing.T) {
	for name, beside := range map[string]func(*hlcstore.Ranges, [2]*hlcstore.Machine){
		"a join": func(r *hlcstore.Ranges, _ [2]*hlcstore.Machine) { must(r.Join()) },
		"a vacuum": func(r *hlcstore.Ranges, machines [2]*hlcstore.Machine) {
			ok(t, r.ReportAll(machines[0], 60))
			ok(t, r.ReportAll(machines[1], 60))
			equal(t, must(r.VacuumTo(hlcstore.MaxStamp)).Stamp, at(60))
		},
	} {
		t.Run(name, func(t *testing.T) {
			r, machines := written(t, byLetters)
			saves := 0
			saved := must(r.CheckpointBy(func(s *hlcstore.Store, w io.Writer, tag uint64) (int64, error) {
				if saves++; saves == 2 {
					beside(r, machines)
				}
				return s.Checkpoint(w, tag)
			}))
			equal(t, saves, 2*4)
			restored := must(hlcstore.RestoreRanges(byLetters, saved))
			defer restored.Close()
			snapshot := must(restored.Snapshot())
			equal(t, snapshot.Stamp(), must(r.Cut()))
			equal(t, must(snapshot.Count(nil, nil)), 26)
		})
	}
}

func TestCheckpointWithoutAReadableCutIsRefused(t *testing.T) {
	r, machines := written(t, byLetters)
	must(r.StoreAt(3).Vacuum()) // to its floor, which is above the cut
	saves := 0
	_, err := r.CheckpointBy(func(*hlcstore.Store, io.Writer, uint64) (int64, error) { saves++; return 0, nil })
	refused(t, err, hlcstore.ErrBelowHorizon, uint64(at(50)+3))
	equal(t, saves, 8*4)
	ok(t, r.ReportAll(machines[0], 60))
	ok(t, r.ReportAll(machines[1], 60))
	must(r.Checkpoint())
}

func TestCheckpointsThatAreNotOfOneCut(t *testing.T) {
	r, machines := written(t, byLetters)
	saved := must(r.Checkpoint())
	for name, bad := range map[string]struct {
		division    hlcstore.Division
		checkpoints [][]byte
		err         error
	}{
		"too few":         {byLetters, saved[:3], hlcstore.ErrNotOneCut},
		"exchanged":       {byLetters, [][]byte{saved[1], saved[0], saved[2], saved[3]}, hlcstore.ErrWrongStore},
		"other division":  {must(hlcstore.DivideByKeys("h", "n", "t")), saved, hlcstore.ErrWrongStore},
		"by hash":         {must(hlcstore.DivideByHash(4)), saved, hlcstore.ErrWrongStore},
		"no checkpoint":   {byLetters, [][]byte{saved[0], nil, saved[2], saved[3]}, hlcstore.ErrBadBytes},
		"of another cut":  {byLetters, later(t, r, machines, saved), hlcstore.ErrNotOneCut},
		"of another join": {byLetters, joinedLater(t, r, saved), hlcstore.ErrNotOneCut},
	} {
		if _, err := hlcstore.RestoreRanges(bad.division, bad.checkpoints); !errors.Is(err, bad.err) {
			t.Error(name, err)
		}
	}
}

// later returns checkpoints of which the last one was made after the cut rose.
func later(t *testing.T, r *hlcstore.Ranges, machines [2]*hlcstore.Machine, saved [][]byte) [][]byte {
	for _, m := range machines {
		ok(t, r.ReportAll(m, 100))
	}
	return append(append([][]byte(nil), saved[:3]...), must(r.Checkpoint())[3])
}

// joinedLater returns checkpoints with one tag, of which the last one has a node more.
func joinedLater(t testing.TB, r *hlcstore.Ranges, saved [][]byte) [][]byte {
	must(r.Join())
	return append(append([][]byte(nil), saved[:3]...), checkpointOf(t, r.StoreAt(3), uint64(at(50))))
}
