package main

import (
	"bytes"
	"encoding/hex"
	"encoding/json"
	"errors"
	"net/http"
	"net/url"
	"os"
	"strconv"

	"hlcstore"
)

// A refused request has no answer, but a status of HTTP and a text.
type refused struct {
	status int
	text   string
}

func (r refused) Error() string { return r.text }

// StatusOf returns the status of a refusal. One of the store, other than of a stamp, may be gone at the next time.
func statusOf(err error) int {
	var own refused
	switch {
	case errors.As(err, &own):
		return own.status
	case errors.Is(err, hlcstore.ErrAboveFloor):
		return http.StatusTooEarly
	case errors.Is(err, hlcstore.ErrBelowHorizon):
		return http.StatusGone
	}
	return http.StatusServiceUnavailable
}

// ServeHTTP answers as serve.py of examples/replicated does, in JSON or in bytes.
func (r *replica) ServeHTTP(to http.ResponseWriter, asked *http.Request) {
	body, err := r.answer(asked)
	if raw, isRaw := body.([]byte); isRaw && err == nil {
		to.Header().Set("Content-Type", "application/octet-stream")
		to.Write(raw)
		return
	}
	to.Header().Set("Content-Type", "application/json")
	if err != nil {
		to.WriteHeader(statusOf(err))
		body = map[string]string{"refused": err.Error()}
	}
	json.NewEncoder(to).Encode(body)
}

func (r *replica) answer(asked *http.Request) (any, error) {
	words, err := url.ParseQuery(asked.URL.RawQuery)
	if err != nil {
		return nil, refused{http.StatusBadRequest, err.Error()}
	}
	switch path := asked.URL.Path; path {
	case "/read":
		return r.readAt(words, readKeys)
	case "/range":
		return r.readAt(words, readRange)
	case "/digest":
		return r.readAt(words, readDigest)
	case "/certificate":
		return r.certificate(words)
	case "/state":
		return r.state(), nil
	case "/checkpoint":
		if paths := r.checkpoints.paths(); len(paths) > 0 {
			return os.ReadFile(paths[0])
		}
	}
	return nil, refused{http.StatusNotFound, "there is no such path, or no checkpoint yet"}
}

func stampOf(words url.Values) (hlcstore.Stamp, error) {
	stamp, err := strconv.ParseUint(words.Get("stamp"), 10, 64)
	if err != nil {
		err = refused{http.StatusBadRequest, "stamp: expected a decimal number below 2^64, got " + words.Get("stamp")}
	}
	return hlcstore.Stamp(stamp), err
}

// A reading adds to an answer what a snapshot has.
type reading func(snapshot *hlcstore.Snapshot, words url.Values, answer map[string]any) error

// ReadAt reads at the stamp, or at the floor without one.
func (r *replica) readAt(words url.Values, read reading) (any, error) {
	store, _ := r.now()
	open := store.Snapshot
	if words.Has("stamp") {
		stamp, err := stampOf(words)
		if err != nil {
			return nil, err
		}
		open = func() (*hlcstore.Snapshot, error) { return store.SnapshotAt(stamp) }
	}
	snapshot, err := open()
	if err != nil {
		return nil, err
	}
	defer snapshot.Close()
	answer := map[string]any{"stamp": uint64(snapshot.Stamp())}
	return answer, read(snapshot, words, answer)
}

func readKeys(snapshot *hlcstore.Snapshot, words url.Values, answer map[string]any) error {
	if len(words["key"]) == 0 {
		return refused{http.StatusBadRequest, "a key is missing"}
	}
	keys := make([][]byte, len(words["key"]))
	for at, key := range words["key"] {
		keys[at] = []byte(key)
	}
	found, err := snapshot.GetMany(keys)
	values := make([]any, len(found))
	for at, value := range found {
		if value != nil {
			values[at] = hex.EncodeToString(value)
		}
	}
	answer["values"] = values
	return err
}

func readRange(snapshot *hlcstore.Snapshot, words url.Values, answer map[string]any) error {
	all := [][2]string{}
	pairs := snapshot.Range([]byte(words.Get("from")), []byte(words.Get("to")))
	defer pairs.Close()
	for pairs.Next() {
		all = append(all, [2]string{hex.EncodeToString(pairs.Key()), hex.EncodeToString(pairs.Value())})
	}
	answer["pairs"] = all
	return pairs.Err()
}

func readDigest(snapshot *hlcstore.Snapshot, words url.Values, answer map[string]any) error {
	from, to := []byte(words.Get("from")), []byte(words.Get("to"))
	digest, err := snapshot.Digest(from, to)
	if err != nil {
		return err
	}
	answer["digest"] = hex.EncodeToString(digest[:])
	answer["keys"], err = snapshot.Count(from, to)
	return err
}

// Certificate vacuums to a stamp, and returns the certificate of the rows up to it.
func (r *replica) certificate(words url.Values) (any, error) {
	stamp, err := stampOf(words)
	if err != nil {
		return nil, err
	}
	var text bytes.Buffer
	store, _ := r.now()
	if _, err = store.VacuumTo(stamp); err == nil {
		_, err = store.Certificate(&text, stamp)
	}
	return text.Bytes(), err
}
