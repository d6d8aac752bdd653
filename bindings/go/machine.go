package hlcstore

// A Machine is a writer to several stores: one clock, and in each store a node with numbers of its own, which is raised
// to the clock before its events. So the stamps of the machine's events rise, whatever stores they are for. It is a
// plain value, apart from any store, and for one goroutine at a time; of two copies only one may go on.
//
// A refused call leaves the machine as it was.
type Machine struct {
	division Division
	last     Stamp
	nodes    []Node // in each store
}

// A Routed is an item with the number of the store that it is for.
type Routed struct {
	Store int
	Item  Item
}

// NewMachine returns the machine of this number, of those that are there when a Ranges is opened: its node in each
// store has the number too. [Ranges.Join] returns the others, and [Ranges.Machine] those before a restart.
func NewMachine(division Division, id uint16) *Machine {
	m := &Machine{division: division, nodes: make([]Node, division.Stores())}
	for store := range m.nodes {
		m.nodes[store] = *NewNode(id, 0)
	}
	return m
}

// ID returns the machine's number, which its nodes have too.
func (m *Machine) ID() uint16 { return m.nodes[0].ID() }

// Last returns the stamp of the machine's last event, on whatever store.
func (m *Machine) Last() Stamp { return m.last }

// Write issues a write at this reading, for the store of the key. It copies the key and the value.
//
// Refusals: those of Node.Write.
func (m *Machine) Write(reading uint64, key, value []byte) (Routed, error) {
	store := m.division.StoreOf(key)
	item, err := m.acting(store).Write(reading, key, value)
	return m.issued(store, item, err)
}

// Delete issues a deletion at this reading, for the store of the key. It copies the key.
//
// Refusals: those of Node.Delete.
func (m *Machine) Delete(reading uint64, key []byte) (Routed, error) {
	store := m.division.StoreOf(key)
	item, err := m.acting(store).Delete(reading, key)
	return m.issued(store, item, err)
}

// WriteBatch issues the writes and deletions of a batch at this reading, as one item for the store of their keys. It
// copies them.
//
// Refusals: ErrWrongStore, where the keys are of several stores; those of Node.WriteBatch.
func (m *Machine) WriteBatch(reading uint64, batch *Batch) (Routed, error) {
	store, err := m.division.storeOfAll(batch)
	if err != nil {
		return Routed{}, err
	}
	item, err := m.acting(store).WriteBatch(reading, batch)
	return m.issued(store, item, err)
}

// ReportAll issues a report at this reading for each store, so that all floors may rise, and with them the cut. Where
// one is refused, none is issued.
//
// Refusals: those of Node.Report.
func (m *Machine) ReportAll(reading uint64) ([]Routed, error) {
	return m.issueAll(func(node *Node) (Item, error) { return node.Report(reading) })
}

// RetireAll issues the machine's last item at this reading for each store. After them no floor waits for the machine.
// Where one is refused, none is issued. A store in which its node retired before it was restored gets none.
//
// Refusals: those of Node.Retire.
func (m *Machine) RetireAll(reading uint64) ([]Routed, error) {
	return m.issueAll(func(node *Node) (Item, error) { return node.Retire(reading) })
}

// Send sends a message at this reading, and returns its stamp, which goes to the receiver.
//
// Refusals: those of Node.Send.
func (m *Machine) Send(reading uint64) (Stamp, error) {
	stamp, err := m.acting(m.present()).Send(reading)
	return m.moved(stamp, err)
}

// Receive receives a message with this stamp at this reading. It returns the stamp of the event, which is above that
// stamp and above the machine's last one.
//
// Refusals: those of Node.Receive.
func (m *Machine) Receive(seen Stamp, reading uint64) (Stamp, error) {
	stamp, err := m.acting(m.present()).Receive(seen, reading)
	return m.moved(stamp, err)
}

// Observe does what Receive does, after the machine read at a cut with this stamp: what it writes later is above it.
func (m *Machine) Observe(seen Stamp, reading uint64) (Stamp, error) {
	return m.Receive(seen, reading)
}

// acting returns the machine's node in a store, raised to the clock.
func (m *Machine) acting(store int) *Node {
	node := &m.nodes[store]
	if node.Last() < m.last {
		node.RaiseTo(m.last)
	}
	return node
}

// present returns a store in which the node has not retired, if there is one.
func (m *Machine) present() int {
	for store := range m.nodes {
		if !m.nodes[store].Retired() {
			return store
		}
	}
	return 0
}

// isRetired returns whether the machine's nodes retired in all stores.
func (m *Machine) isRetired() bool { return m.nodes[m.present()].Retired() }

// moved takes over the stamp of an event.
func (m *Machine) moved(stamp Stamp, err error) (Stamp, error) {
	if err == nil {
		m.last = stamp
	}
	return stamp, err
}

func (m *Machine) issued(store int, item Item, err error) (Routed, error) {
	if err != nil {
		return Routed{}, err
	}
	m.last = item.Stamp
	return Routed{store, item}, nil
}

// issueAll lets each node issue an item, except those that retired while others did not.
func (m *Machine) issueAll(issue func(*Node) (Item, error)) ([]Routed, error) {
	if m.isRetired() {
		return nil, &Error{Code: ErrRetired}
	}
	after := &Machine{m.division, m.last, append([]Node(nil), m.nodes...)}
	all := make([]Routed, 0, len(m.nodes))
	for store := range m.nodes {
		if m.nodes[store].Retired() {
			continue
		}
		item, err := issue(after.acting(store))
		if err != nil {
			return nil, err
		}
		after.last = item.Stamp
		all = append(all, Routed{store, item})
	}
	*m = *after
	return all, nil
}
