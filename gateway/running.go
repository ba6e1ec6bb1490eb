package main

import (
	"context"
	"fmt"
	"log"
	"net"
	"os"
	"os/signal"
	"sync/atomic"
	"syscall"

	"pathd/gateway/internal/notify"
	"pathd/gateway/internal/settings"
)

// reloads counts how often certificates and trust were read again.
type reloads struct{ good, faulty atomic.Uint64 }

// run serves until SIGTERM or SIGINT.
func run(s *settings.Settings) error {
	signals := make(chan os.Signal, 4)
	signal.Notify(signals, syscall.SIGTERM, syscall.SIGINT, syscall.SIGHUP)
	listener, err := net.Listen("tcp", s.Listen)
	if err != nil {
		return fmt.Errorf("--listen: %w", err)
	}
	g, err := newGateway(s, listener)
	if err != nil {
		return err
	}
	if s.Status != "" {
		numbers, err := net.Listen("tcp", s.Status)
		if err != nil {
			return fmt.Errorf("--status: %w", err)
		}
		defer g.serveNumbers(numbers).Close()
		fmt.Println("numbers at", numbers.Addr())
	}
	ctx, cancel := context.WithCancel(context.Background())
	defer cancel()
	g.start(ctx)
	fmt.Println("serves at", listener.Addr())
	tell("READY=1")
	for it := range signals {
		if it != syscall.SIGHUP {
			break
		}
		g.reload()
	}
	tell("STOPPING=1")
	cancel()
	g.drain()
	return nil
}

// start starts all that serves.
func (g *gateway) start(ctx context.Context) {
	g.watcher.ask(ctx)
	go g.watcher.run(ctx)
	if g.keeper != nil {
		go g.keeper.Run(ctx)
	}
	go g.grpc.Serve(g.door.GRPC())
	go g.web.Serve(g.door.HTTP1())
	go g.door.Run()
}

// reload reads certificates, roles and trust again, up to the first that is faulty.
func (g *gateway) reload() {
	tell("RELOADING=1")
	defer tell("READY=1")
	err := error(nil)
	if g.certificates != nil {
		err = g.certificates.read()
	}
	if g.roles != nil && err == nil {
		err = g.roles.Read()
	}
	if g.keeper != nil && err == nil {
		err = g.keeper.Read()
	}
	if err != nil {
		g.reloads.faulty.Add(1)
		log.Printf("not all was read again: %v", err)
		return
	}
	g.reloads.good.Add(1)
	log.Print("certificates, roles and trust were read again")
}

func tell(line string) {
	if err := notify.Send(line); err != nil {
		log.Print(err)
	}
}
