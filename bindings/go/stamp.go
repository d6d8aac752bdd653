package hlcstore

import (
	"fmt"
	"strconv"
	"strings"
	"time"
)

// A Stamp is a hybrid logical timestamp: a physical part of 48 bits above a counter of 16, so that stamps are ordered
// as numbers. The physical part has the unit of the readings that the nodes get. Of [Reading] and [StampAt] that is a
// millisecond since 1970; any other unit that fits, and that all nodes share, is as good. As text, also in JSON, a
// stamp is its two parts, as 5.0.
//
// A timestamp of another database that counts nanoseconds in 64 bits does not fit into a stamp.
type Stamp uint64

// MaxStamp is the greatest stamp. The least one is 0.
const MaxStamp = ^Stamp(0)

const (
	counterBits  = 16
	physicalBits = 48
)

// NewStamp returns the stamp with these parts.
//
// Refusal: ErrReadingTooLarge, where the physical part is 2^48 or more.
func NewStamp(physical uint64, counter uint16) (Stamp, error) {
	if physical>>physicalBits != 0 {
		return 0, &Error{Code: ErrReadingTooLarge}
	}
	return Stamp(physical<<counterBits | uint64(counter)), nil
}

// MustStamp is like NewStamp, but panics where the physical part is too large. It is for constants.
func MustStamp(physical uint64, counter uint16) Stamp {
	stamp, err := NewStamp(physical, counter)
	if err != nil {
		panic(err)
	}
	return stamp
}

// StampAt returns the least stamp of a time: its milliseconds since 1970 UTC, and the counter 0. A finer part of the
// time is cut off.
//
// Refusal: ErrReadingTooLarge, where the time is before 1970 or after the year 10889.
func StampAt(t time.Time) (Stamp, error) {
	return NewStamp(Reading(t), 0)
}

// Reading returns a time as the reading of a physical clock: its milliseconds since 1970 UTC. A node refuses the
// reading of a time before 1970 or after the year 10889 with ErrReadingTooLarge.
func Reading(t time.Time) uint64 {
	return uint64(t.UnixMilli())
}

// ParseStamp returns the stamp of a text as 5.0: two decimal numbers without leading zeros, and a full stop between
// them.
func ParseStamp(text string) (Stamp, error) {
	physicalText, counterText, found := strings.Cut(text, ".")
	physical, physicalErr := strconv.ParseUint(physicalText, 10, physicalBits)
	counter, counterErr := strconv.ParseUint(counterText, 10, counterBits)
	stamp := Stamp(physical<<counterBits | counter)
	if !found || physicalErr != nil || counterErr != nil || stamp.String() != text {
		return 0, fmt.Errorf("hlcstore: %q is no stamp", text)
	}
	return stamp, nil
}

// Physical returns the physical part.
func (s Stamp) Physical() uint64 { return uint64(s) >> counterBits }

// Counter returns the counter, the logical part.
func (s Stamp) Counter() uint16 { return uint16(s) }

// Time returns the physical part as the time of this many milliseconds since 1970 UTC.
func (s Stamp) Time() time.Time { return time.UnixMilli(int64(s.Physical())).UTC() }

// String returns the parts as text, as 5.0.
func (s Stamp) String() string {
	return strconv.FormatUint(s.Physical(), 10) + "." + strconv.FormatUint(uint64(s.Counter()), 10)
}

// MarshalText returns the same text as String.
func (s Stamp) MarshalText() ([]byte, error) { return []byte(s.String()), nil }

// UnmarshalText does what ParseStamp does. After an error the stamp is as it was.
func (s *Stamp) UnmarshalText(text []byte) error {
	parsed, err := ParseStamp(string(text))
	if err == nil {
		*s = parsed
	}
	return err
}
