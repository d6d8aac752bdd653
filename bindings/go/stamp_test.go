package hlcstore_test

import (
	"encoding/json"
	"math"
	"testing"
	"time"

	"hlcstore"
)

func TestStampHasItsParts(t *testing.T) {
	stamp, err := hlcstore.NewStamp(12, 7)
	ok(t, err)
	equal(t, stamp, hlcstore.Stamp(12*65536+7))
	equal(t, stamp.Physical(), 12)
	equal(t, stamp.Counter(), 7)
	equal(t, hlcstore.MaxStamp, hlcstore.MustStamp(1<<48-1, math.MaxUint16))
}

func TestStampsAreOrderedByBothParts(t *testing.T) {
	rising := []hlcstore.Stamp{
		0, hlcstore.MustStamp(0, 1), at(1), hlcstore.MustStamp(1, 65535), at(2), hlcstore.MaxStamp,
	}
	for i := 1; i < len(rising); i++ {
		if rising[i-1] >= rising[i] {
			t.Error(rising[i-1], rising[i])
		}
	}
}

func TestPhysicalPartTooLarge(t *testing.T) {
	_, err := hlcstore.NewStamp(1<<48, 0)
	refused(t, err, hlcstore.ErrReadingTooLarge, 0)
	defer func() {
		if recover() == nil {
			t.Error("MustStamp did not panic")
		}
	}()
	hlcstore.MustStamp(1<<48, 0)
}

func TestStampOfTime(t *testing.T) {
	moment := time.Date(1970, 1, 1, 0, 0, 2, 3_456_789, time.UTC)
	stamp, err := hlcstore.StampAt(moment)
	ok(t, err)
	equal(t, stamp, at(2003))
	equal(t, stamp.Time(), time.Date(1970, 1, 1, 0, 0, 2, 3_000_000, time.UTC))
	equal(t, hlcstore.Reading(moment), 2003)
	_, err = hlcstore.StampAt(time.Date(1969, 12, 31, 23, 59, 59, 0, time.UTC))
	refused(t, err, hlcstore.ErrReadingTooLarge, 0)
	_, err = hlcstore.StampAt(time.Date(10890, 1, 1, 0, 0, 0, 0, time.UTC))
	refused(t, err, hlcstore.ErrReadingTooLarge, 0)
	_, err = hlcstore.StampAt(time.Date(10889, 1, 1, 0, 0, 0, 0, time.UTC))
	ok(t, err)
}

func TestStampAsText(t *testing.T) {
	texts := map[string]hlcstore.Stamp{
		"0.0": 0, "5.0": at(5), "5.65535": hlcstore.MustStamp(5, 65535), "281474976710655.65535": hlcstore.MaxStamp,
	}
	for text, stamp := range texts {
		equal(t, stamp.String(), text)
		parsed, err := hlcstore.ParseStamp(text)
		ok(t, err)
		equal(t, parsed, stamp)
	}
	for _, text := range []string{
		"", ".", "5", "5.", ".5", "05.0", "5.00", "5.0.0", "+5.0", "-5.0", " 5.0", "5.0 ", "5,0", "5.65536",
		"281474976710656.0", "281474976710656.0", "0x5.0", "5_0.0", "99999999999999999999.0",
	} {
		if parsed, err := hlcstore.ParseStamp(text); err == nil || parsed != 0 {
			t.Errorf("%q: got %v, %v", text, parsed, err)
		}
	}
}

func TestStampInJSON(t *testing.T) {
	text, err := json.Marshal(map[hlcstore.Stamp]hlcstore.Stamp{at(5): at(6)})
	ok(t, err)
	equal(t, string(text), `{"5.0":"6.0"}`)
	var stamps map[hlcstore.Stamp]hlcstore.Stamp
	ok(t, json.Unmarshal(text, &stamps))
	equal(t, stamps[at(5)], at(6))
	stamp := at(9)
	if json.Unmarshal([]byte(`"9"`), &stamp) == nil {
		t.Error("it is no stamp")
	}
	equal(t, stamp, at(9))
}
