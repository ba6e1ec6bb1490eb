package main

import (
	"fmt"
	"log"
	"net"
	"net/http"
	"runtime"
	"time"

	"pathd"
	"pathd/gateway/internal/door"
	"pathd/gateway/internal/numbers"
)

const statusLimit = 10 * time.Second

// serveNumbers answers GET /metrics at a listener, and GET /healthz by 200 where pathd answers.
func (g *gateway) serveNumbers(listener net.Listener) *http.Server {
	paths := http.NewServeMux()
	paths.HandleFunc("/metrics", func(w http.ResponseWriter, r *http.Request) {
		w.Header().Set("Content-Type", "text/plain; version=0.0.4; charset=utf-8")
		w.Write(g.page().Bytes())
	})
	paths.HandleFunc("/healthz", func(w http.ResponseWriter, r *http.Request) {
		if !g.watcher.isUp() {
			http.Error(w, "pathd does not answer", http.StatusServiceUnavailable)
			return
		}
		fmt.Fprintln(w, "ok")
	})
	server := &http.Server{
		Handler: paths, ReadTimeout: statusLimit, WriteTimeout: statusLimit, IdleTimeout: statusLimit,
		MaxHeaderBytes: door.MostHeader - ofHTTP1, ErrorLog: log.New(panicLog{}, "", 0),
	}
	go server.Serve(listener)
	return server
}

// page writes all numbers.
func (g *gateway) page() *numbers.Page {
	p := new(numbers.Page)
	p.Gauge("pathd_gateway_info", "The version of the program.")
	p.Row("pathd_gateway_info", fmt.Sprintf("version=%q", version), 1)
	p.Gauge("pathd_gateway_uptime_seconds", "Seconds since the start.")
	p.Row("pathd_gateway_uptime_seconds", "", float64(int(time.Since(g.begun).Seconds())))
	p.Gauge("pathd_gateway_pathd_up", "1 while pathd answers a lookup each second, or one of several does.")
	p.Row("pathd_gateway_pathd_up", "", number(g.watcher.isUp()))
	var each []*numbers.Method
	for _, m := range g.methods {
		each = append(each, m.Numbers())
	}
	numbers.WriteCalls(p, each)
	g.writeCalls(p)
	g.writeDoor(p)
	g.writeUpstream(p)
	g.writeServers(p)
	g.writeFiles(p)
	return p
}

func (g *gateway) writeCalls(p *numbers.Page) {
	underWay, whole, turned := g.desk.Numbers()
	p.Gauge("pathd_gateway_calls", "Calls under way, by whether their requests are whole.")
	p.Row("pathd_gateway_calls", `request="whole"`, float64(whole))
	p.Row("pathd_gateway_calls", `request="incomplete"`, float64(underWay-whole))
	p.Counter("pathd_gateway_calls_turned_away_total", "Calls that were ended for want of room.")
	p.Row("pathd_gateway_calls_turned_away_total", "", float64(turned))
	g.desk.WritePages(p)
	var memory runtime.MemStats
	runtime.ReadMemStats(&memory)
	p.Gauge("pathd_gateway_memory_bytes", "Bytes that the program has from the system.")
	p.Row("pathd_gateway_memory_bytes", "", float64(memory.Sys-memory.HeapReleased))
	p.Gauge("pathd_gateway_goroutines", "Goroutines.")
	p.Row("pathd_gateway_goroutines", "", float64(runtime.NumGoroutine()))
}

func (g *gateway) writeDoor(p *numbers.Page) {
	n := g.door.Numbers()
	p.Gauge("pathd_gateway_connections", "Open connections.")
	p.Row("pathd_gateway_connections", "", float64(n.Open))
	p.Gauge("pathd_gateway_owed_bytes", "Bytes of replies that clients have not taken yet.")
	p.Row("pathd_gateway_owed_bytes", "", float64(n.Owed))
	p.Counter("pathd_gateway_connections_total", "Connections by what they spoke.")
	for i, kind := range []string{"http1", "http2", "grpc"} {
		p.Row("pathd_gateway_connections_total", fmt.Sprintf("kind=%q", kind), float64(n.Kinds[i]))
	}
	p.Counter("pathd_gateway_connections_closed_total", "Connections that the gateway has closed, by why.")
	for _, it := range []struct {
		why   string
		count uint64
	}{{"no_room", n.Refused}, {"faulty", n.Faulty}, {"flood", n.Flooded}, {"stuck", n.Stuck}, {"idle", n.Idle}, {"slow", n.Slow}} {
		p.Row("pathd_gateway_connections_closed_total", fmt.Sprintf("why=%q", it.why), float64(it.count))
	}
}

func (g *gateway) writeUpstream(p *numbers.Page) {
	lookups, registrations, lists := g.servers.Numbers()
	pools := []struct {
		name string
		n    pathd.Numbers
	}{{"lookups", lookups}, {"registrations", registrations}, {"lists", lists}}
	each := func(name string, value func(pathd.Numbers) float64) {
		for _, it := range pools {
			p.Row(name, fmt.Sprintf("pool=%q", it.name), value(it.n))
		}
	}
	p.Gauge("pathd_gateway_sessions", "Open sessions with pathd.")
	each("pathd_gateway_sessions", func(n pathd.Numbers) float64 { return float64(n.Open) })
	p.Gauge("pathd_gateway_requests", "Requests to pathd under way.")
	each("pathd_gateway_requests", func(n pathd.Numbers) float64 { return float64(n.UnderWay) })
	p.Counter("pathd_gateway_sessions_opened_total", "Sessions with pathd that were opened.")
	each("pathd_gateway_sessions_opened_total", func(n pathd.Numbers) float64 { return float64(n.Opened) })
	p.Counter("pathd_gateway_sessions_ended_total", "Sessions with pathd that have ended.")
	each("pathd_gateway_sessions_ended_total", func(n pathd.Numbers) float64 { return float64(n.Ended) })
	p.Counter("pathd_gateway_connects_failed_total", "Connections to pathd that failed.")
	each("pathd_gateway_connects_failed_total", func(n pathd.Numbers) float64 { return float64(n.Failed) })
	p.Counter("pathd_gateway_requests_repeated_total", "Requests that were tried a second time.")
	each("pathd_gateway_requests_repeated_total", func(n pathd.Numbers) float64 { return float64(n.Repeated) })
}

// writeServers writes what several servers come to, and of one whether it answers.
func (g *gateway) writeServers(p *numbers.Page) {
	p.Gauge("pathd_gateway_server_up", "1 while the pathd at an address answers a lookup each second.")
	for _, it := range g.watcher.servers {
		p.Row("pathd_gateway_server_up", fmt.Sprintf("server=%q", it.Address()), number(it.isUp.Load()))
	}
	states := g.servers.States()
	p.Gauge("pathd_gateway_registrations_waiting", "Registrations that wait for one of several servers, or are under way there.")
	for _, it := range states {
		p.Row("pathd_gateway_registrations_waiting", fmt.Sprintf("server=%q", it.Address), float64(it.Waiting))
	}
	const notTaken = "pathd_gateway_registrations_not_taken_total"
	p.Counter(notTaken, "Registrations that one of several servers has refused for good, and those that were dropped for want of room to wait.")
	for _, it := range states {
		p.Row(notTaken, fmt.Sprintf(`server=%q,why="refused"`, it.Address), float64(it.Refused))
		p.Row(notTaken, fmt.Sprintf(`server=%q,why="dropped"`, it.Address), float64(it.Dropped))
	}
}

func (g *gateway) writeFiles(p *numbers.Page) {
	p.Counter("pathd_gateway_reloads_total", "How often certificates and trust were to be read again.")
	p.Row("pathd_gateway_reloads_total", `result="good"`, float64(g.reloads.good.Load()))
	p.Row("pathd_gateway_reloads_total", `result="faulty"`, float64(g.reloads.faulty.Load()))
	if g.certificates != nil {
		p.Gauge("pathd_gateway_certificate_expires_seconds", "When the TLS certificate expires, in seconds since 1970.")
		p.Row("pathd_gateway_certificate_expires_seconds", "", float64(g.certificates.expiresAt().Unix()))
	}
	if g.keeper != nil {
		g.keeper.WriteNumbers(p)
	}
}

func number(is bool) float64 {
	if is {
		return 1
	}
	return 0
}
