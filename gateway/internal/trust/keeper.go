// Package trust verifies registrations by a folder of TRCs and chains, and answers
// TrustMaterialService from it. What the folder lacks may be fetched from a control service.
package trust

import (
	"context"
	"errors"
	"fmt"
	"os"
	"path/filepath"
	"runtime"
	"sync"
	"sync/atomic"
	"time"

	"pathd/gateway/internal/cppki"
	"pathd/gateway/internal/shares"
)

const (
	mostFile     = 1 << 20 // bytes of a file of the folder
	mostFiles    = 10_000
	mostKnown    = 65_536 // signatures that are remembered
	lookPause    = time.Minute
	trcPattern   = "*.trc"
	chainPattern = "*.pem"
)

// Options of a Keeper.
type Options struct {
	// Folder has the TRCs (*.trc) and the chains (*.pem).
	Folder string
	// Server is the address of a control service that is asked for what the folder lacks, or empty.
	Server string
}

// Keeper keeps the material, and verifies by it.
type Keeper struct {
	options  Options
	material atomic.Pointer[cppki.Material]
	known    *cppki.Memory
	turns    *shares.Turns // of those that verify
	fetcher  *fetcher      // nil without a server
	counts   counts

	mu      sync.Mutex // held while the material is changed
	folder  *cppki.Material
	fetched fetched
}

type counts struct{ good, remembered, refused atomic.Uint64 }

// Open answers a keeper of the folder, which has to be good as a whole.
func Open(options Options) (*Keeper, error) {
	k := &Keeper{options: options, known: cppki.NewMemory(mostKnown)}
	// Half of the processors are for lookups.
	turns := (runtime.GOMAXPROCS(0) + 1) / 2
	k.turns = shares.NewTurns(turns, turns)
	if options.Server != "" {
		k.fetcher = newFetcher(options.Server)
	}
	return k, k.Read()
}

// Read reads the folder again. Where a file is faulty the material stays as it was. What was fetched
// before is dropped, and fetched again where it is needed.
func (k *Keeper) Read() error {
	material, err := readFolder(k.options.Folder)
	if err != nil {
		return fmt.Errorf("trust: %w", err)
	}
	k.mu.Lock()
	defer k.mu.Unlock()
	k.folder, k.fetched = material, fetched{}
	k.material.Store(material)
	return nil
}

func readFolder(folder string) (*cppki.Material, error) {
	var trcs []*cppki.TRC
	err := eachFile(folder, trcPattern, func(content []byte) error {
		trc, err := cppki.ParseTRC(content)
		trcs = append(trcs, trc)
		return err
	})
	if err != nil {
		return nil, err
	}
	if len(trcs) == 0 {
		return nil, fmt.Errorf("%s has no TRC (%s)", folder, trcPattern)
	}
	var chains []*cppki.Chain
	err = eachFile(folder, chainPattern, func(content []byte) error {
		chain, err := cppki.ParseChainPEM(content)
		chains = append(chains, chain)
		return err
	})
	if err != nil {
		return nil, err
	}
	return cppki.NewMaterial(trcs, chains)
}

// eachFile gives the contents of the files of a pattern to a function, in the order of their names.
func eachFile(folder, pattern string, do func([]byte) error) error {
	names, err := filepath.Glob(filepath.Join(folder, pattern))
	if err != nil {
		return err
	}
	if len(names) > mostFiles {
		return fmt.Errorf("%s has more than %d files %s", folder, mostFiles, pattern)
	}
	for _, name := range names {
		about, err := os.Stat(name)
		if err == nil && about.Size() > mostFile {
			err = errors.New("the file is too large")
		}
		var content []byte
		if err == nil {
			content, err = os.ReadFile(name)
		}
		if err == nil {
			err = do(content)
		}
		if err != nil {
			return fmt.Errorf("%s: %w", name, err)
		}
	}
	return nil
}

// Run drops chains that were fetched and have expired, until the context ends.
func (k *Keeper) Run(ctx context.Context) {
	ticks := time.NewTicker(lookPause)
	defer ticks.Stop()
	for {
		select {
		case now := <-ticks.C:
			k.mu.Lock()
			if k.fetched.drop(now) {
				k.publish()
			}
			k.mu.Unlock()
		case <-ctx.Done():
			return
		}
	}
}

// publish has the folder's material with what was fetched count. The lock is held.
func (k *Keeper) publish() error {
	material, err := k.folder.With(k.fetched.trcs, k.fetched.chains)
	if err != nil {
		return err
	}
	k.material.Store(material)
	return nil
}
