// The program bench measures calls of several servers in the same rounds; bench/pathd-bench gateway
// runs it. With -echo it is a server of gRPC that answers each call by as many bytes.
package main

import (
	"context"
	"flag"
	"fmt"
	"log"
	"os"
	"strconv"
	"strings"
	"time"
)

func main() {
	log.SetFlags(0)
	echo := flag.String("echo", "", "serve as an echo at this address")
	size := flag.Int("size", 0, "bytes of a reply of the echo")
	rounds := flag.Int("rounds", 5, "rounds")
	length := flag.Duration("length", time.Second, "of a part of a round")
	callers := flag.String("callers", "1,8,64", "how many callers")
	ask := flag.String("ask", "lookup", "lookup or register")
	wanted := flag.Int("wanted", -1, "bytes of each reply; -1 is any number")
	flag.Usage = func() {
		fmt.Fprintln(os.Stderr, "usage: bench [OPTIONS] NAME=grpc@ADDR|NAME=connect@ADDR[@PID,PID] ..\nThe first target is what the others are compared with.")
		flag.PrintDefaults()
	}
	flag.Parse()
	if *echo != "" {
		log.Fatal(serveEcho(*echo, *size))
	}
	b := &bench{length: *length, isLookup: *ask == "lookup", wanted: *wanted}
	for _, text := range flag.Args() {
		target, err := parseTarget(text)
		if err != nil {
			log.Fatal(err)
		}
		b.targets = append(b.targets, target)
	}
	if err := b.prepare(context.Background()); err != nil {
		log.Fatal(err)
	}
	for _, text := range strings.Split(*callers, ",") {
		count, err := strconv.Atoi(text)
		if err != nil {
			log.Fatal(err)
		}
		b.measure(*rounds, count)
	}
}
