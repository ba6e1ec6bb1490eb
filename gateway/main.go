// pathd-gateway answers what daemons and control services of a SCION AS call, by asking pathd.
// docs/GATEWAY.md has its options, statuses and bounds.
package main

import (
	"errors"
	"flag"
	"fmt"
	"log"
	"os"
	"runtime/debug"

	"pathd/gateway/internal/settings"
)

// version is that of the program pathd: `tools/pathd-tools versions` compares them.
const version = "1.0-rc1"

// The heap is small, so that it may grow by much before garbage is collected: that takes a tenth of a
// call's processor time else. The environment's GOGC and GOMEMLIMIT count before these.
const (
	garbagePercent = 800
	memoryLimit    = 768 << 20 // bytes from which on garbage is collected more often
)

// Statuses of the process.
const (
	statusFault = 1
	statusWords = 2
)

func main() {
	log.SetFlags(0)
	log.SetPrefix("pathd-gateway: ")
	s, err := settings.Read(os.Args[1:], os.Stdout)
	switch {
	case errors.Is(err, flag.ErrHelp):
		return
	case err != nil:
		os.Exit(statusWords)
	case s.Version:
		fmt.Println("pathd-gateway", version)
		return
	}
	setMemory()
	if err := run(s); err != nil {
		log.Print(err)
		os.Exit(statusFault)
	}
}

func setMemory() {
	if os.Getenv("GOGC") == "" {
		debug.SetGCPercent(garbagePercent)
	}
	if os.Getenv("GOMEMLIMIT") == "" {
		debug.SetMemoryLimit(memoryLimit)
	}
}
