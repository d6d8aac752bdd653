package hlcstore

// #include "calls.h"
import "C"

import "unsafe"

// AppendJoin appends a record to a log that replicas share: a node joins, is assigned this number, and starts at this
// stamp. It returns the longer log; the record has 11 bytes. The bytes of an Item are a record too.
func AppendJoin(log []byte, node uint16, start Stamp) []byte {
	return appendRecord(log, C.hlcgo_record_join(C.uint16_t(node), C.uint64_t(start)))
}

// AppendThreshold appends a record to a log that replicas share: no more snapshot is opened below this stamp, the
// retention threshold, so each replica may vacuum to it. It returns the longer log; the record has 9 bytes.
func AppendThreshold(log []byte, stamp Stamp) []byte {
	return appendRecord(log, C.hlcgo_record_threshold(C.uint64_t(stamp)))
}

func appendRecord(log []byte, record C.hlcgo_record) []byte {
	return append(log, (*[len(record.bytes)]byte)(unsafe.Pointer(&record.bytes))[:record.len]...)
}
