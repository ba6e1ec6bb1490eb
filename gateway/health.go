package main

import (
	"context"
	"errors"
	"log"
	"sync"
	"sync/atomic"
	"time"

	"google.golang.org/grpc/health"
	healthpb "google.golang.org/grpc/health/grpc_health_v1"

	"pathd"
	"pathd/gateway/internal/calls"
	"pathd/gateway/internal/upstream"
)

const (
	checkPause = time.Second
	checkLimit = 2 * time.Second
)

// watcher asks each pathd every second whether it answers, and has health checks say whether one does. The
// log has a line when one no longer answers, and one when it does again.
type watcher struct {
	servers  []*watched
	checks   *health.Server
	services []string
}

type watched struct {
	upstream.Server
	isUp   atomic.Bool
	isAway bool // as the log says
}

func newWatcher(servers []upstream.Server, checks *health.Server, services []string) *watcher {
	w := &watcher{checks: checks, services: services}
	for _, it := range servers {
		w.servers = append(w.servers, &watched{Server: it})
	}
	return w
}

// isUp answers whether a server answers.
func (w *watcher) isUp() bool {
	for _, it := range w.servers {
		if it.isUp.Load() {
			return true
		}
	}
	return false
}

// run asks until the context ends.
func (w *watcher) run(ctx context.Context) {
	for ctx.Err() == nil {
		w.ask(ctx)
		select {
		case <-time.After(checkPause):
		case <-ctx.Done():
		}
	}
}

// ask asks all servers at one time. After the context has ended it notes nothing, as the checks then say
// that the gateway ends.
func (w *watcher) ask(ctx context.Context) {
	var all sync.WaitGroup
	for _, it := range w.servers {
		all.Add(1)
		go func(it *watched) {
			defer all.Done()
			it.ask(ctx)
		}(it)
	}
	all.Wait()
	if ctx.Err() != nil {
		return
	}
	status := healthpb.HealthCheckResponse_NOT_SERVING
	if w.isUp() {
		status = healthpb.HealthCheckResponse_SERVING
	}
	for _, name := range w.services {
		w.checks.SetServingStatus(name, status)
	}
}

// ask sends the lookup without sides, which pathd refuses.
func (w *watched) ask(ctx context.Context) {
	limited, cancel := context.WithTimeout(ctx, checkLimit)
	defer cancel()
	_, err := w.Ask(limited, pathd.KindLookup, nil)
	if ctx.Err() != nil {
		return
	}
	isUp := errors.Is(err, pathd.NullDestination)
	w.isUp.Store(isUp)
	switch {
	case !isUp && !w.isAway:
		log.Printf("pathd at %s does not answer: %s", w.Address(), reasonOf(err))
	case isUp && w.isAway:
		log.Printf("pathd at %s answers again", w.Address())
	}
	w.isAway = !isUp
}

// reasonOf answers why what a lookup has come to is no answer of pathd.
func reasonOf(err error) string {
	if err == nil {
		return "it takes a lookup without sides"
	}
	return calls.FaultOf(err).Text
}
