// Replicated-go is a replica of the example in examples/replicated, in Go: it applies the log in etcd to a store of its
// own, and answers reads at closed timestamps over HTTP. It talks to etcd by gRPC, so no batch becomes JSON on its way.
package main

import (
	"context"
	"encoding/json"
	"flag"
	"io"
	"log"
	"net"
	"net/http"
	"os"
	"os/signal"
	"strings"
	"syscall"
	"time"

	"go.etcd.io/etcd/clientv3"
	"google.golang.org/grpc"
)

// How long a call of etcd may take, a member may be silent, and an answer may be under way when the program ends.
const patience = 3 * time.Second

func main() {
	name := flag.String("name", "", "its name, under which it publishes where it is")
	folder := flag.String("folder", "", "the folder of its checkpoints, which is made if it is not there")
	members := flag.String("members", "", "the addresses of the members of etcd, HOST:PORT, with commas between")
	listen := flag.String("listen", "127.0.0.1:0", "the address at which it answers")
	seconds := flag.Float64("checkpoint-seconds", 60, "seconds from one checkpoint to the next")
	piped := flag.Bool("piped", false, "say in JSON on the output where it began, and end with the input")
	flag.Parse()
	if *name == "" || *folder == "" || *members == "" || *seconds <= 0 || flag.NArg() > 0 {
		flag.Usage()
		os.Exit(2)
	}
	log.SetPrefix("replica/" + *name + " ")
	ctx, stop := signal.NotifyContext(context.Background(), syscall.SIGTERM, os.Interrupt)
	r := &replica{name: *name, checkpoints: checkpoints{*folder}, say: func(any) {}}
	if *piped {
		r.say = func(said any) { json.NewEncoder(os.Stdout).Encode(said) }
		go func() {
			io.Copy(io.Discard, os.Stdin)
			stop()
		}()
	}
	if err := r.work(ctx, *members, *listen, time.Duration(*seconds*float64(time.Second))); err != nil {
		log.Fatal(err)
	}
}

// Work runs the replica until the context ends, and then makes a last checkpoint. A member of etcd that does not answer
// is left for the next one.
func (r *replica) work(ctx context.Context, members, listen string, every time.Duration) (err error) {
	r.etcd, err = clientv3.New(clientv3.Config{
		Endpoints:            strings.Split(members, ","),
		DialKeepAliveTime:    patience,
		DialKeepAliveTimeout: patience,
		PermitWithoutStream:  true,
		DialOptions:          []grpc.DialOption{grpc.WithDefaultCallOptions(grpc.MaxCallRecvMsgSize(1 << 30))},
	})
	if err != nil {
		return err
	}
	defer r.etcd.Close()
	if err := r.beginFromDisk(); err != nil {
		return err
	}
	listener, err := net.Listen("tcp", listen)
	if err != nil {
		return err
	}
	server, ended := &http.Server{Handler: r}, make(chan error, 3)
	go func() { ended <- server.Serve(listener) }()
	go func() { ended <- r.follow(ctx) }()
	go func() { ended <- r.keepUp(ctx, listener.Addr().String(), every) }()
	log.Printf("answers over HTTP at %s", listener.Addr())
	r.say(map[string]any{"address": listener.Addr().String()})
	if err := <-ended; ctx.Err() == nil {
		return err
	}
	finish, cancel := context.WithTimeout(context.Background(), patience)
	defer cancel()
	server.Shutdown(finish)
	return r.save()
}
