package main

import (
	"fmt"
	"os"
	"path/filepath"
	"strings"
	"syscall"
	"time"
)

// processorOf answers the processor time of the threads of processes, as far as they have not ended.
func processorOf(processes []string) (total time.Duration) {
	for _, pid := range processes {
		files, _ := filepath.Glob("/proc/" + pid + "/task/*/schedstat")
		for _, name := range files {
			var nanoseconds int64
			if content, err := os.ReadFile(name); err == nil {
				fmt.Sscan(strings.Fields(string(content))[0], &nanoseconds)
			}
			total += time.Duration(nanoseconds)
		}
	}
	return total
}

// ownProcessor answers the processor time of this program.
func ownProcessor() time.Duration {
	var usage syscall.Rusage
	if err := syscall.Getrusage(syscall.RUSAGE_SELF, &usage); err != nil {
		return 0
	}
	return time.Duration(usage.Utime.Nano() + usage.Stime.Nano())
}
