// Package listing describes to an iterator where its entries come from.
package listing

// A Form is how an entry is written behind its key, and from which end a range is read.
type Form uint8

const (
	Pairs     Form = iota // a value
	PairsBack             // a value, and the last key comes first
	Keys                  // nothing
	Answers               // an answer, as of hlc_snapshot_changes
)

// A Part is what one call wrote of a range.
type Part struct {
	Len, Many int  // how many bytes, and how many entries
	More      bool // whether entries are left
}

// A Scan writes as many whole entries of a range as there is room for behind out.
type Scan func(from, to, out []byte) (Part, error)
