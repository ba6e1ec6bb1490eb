package pathd

import (
	"context"
	"errors"
	"sync"
	"testing"
	"time"
)

// A request whose session ends under it is sent once more.
func TestARequestIsRepeated(t *testing.T) {
	store := running(t, silent)
	client, ctx := clientOf(t, store, ClientOptions{Attempts: 2})
	done := make(chan error, 1)
	go func() {
		_, err := client.Purge(ctx, time.Unix(0, 0))
		done <- err
	}()
	store.waitFor(1)
	if _, commands := client.Numbers(); commands != (Numbers{Open: 1, UnderWay: 1, Opened: 1}) {
		t.Errorf("%+v", commands)
	}
	store.setAnswer(taken)
	store.cut()
	if err := <-done; err != nil {
		t.Error(err)
	}
	if _, commands := client.Numbers(); commands != (Numbers{Open: 1, Opened: 2, Ended: 1, Repeated: 1}) {
		t.Errorf("%+v", commands)
	}
}

func TestConnectionsAreNotTriedInALoop(t *testing.T) {
	client, ctx := clientOf(t, newStore(t, taken), ClientOptions{Attempts: 1})
	begun := time.Now()
	for number := 0; number < 1000; number++ {
		var ended *SessionError
		if _, err := client.Lookup(ctx, 1, 2); !errors.As(err, &ended) || ended.Opened {
			t.Fatal(err)
		}
	}
	most := 1 + uint64(time.Since(begun)/shortestPause)
	if lookups, _ := client.Numbers(); lookups.Failed == 0 || lookups.Failed > most {
		t.Errorf("%d connections, not at most %d", lookups.Failed, most)
	}
}

// A server that reads nothing holds up no caller, though the system takes no more for it.
func TestADeafServerHoldsUpNobody(t *testing.T) {
	quit := make(chan struct{})
	store := running(t, func([]byte) []byte { <-quit; return nil })
	t.Cleanup(func() { close(quit) })
	client, ctx := clientOf(t, store, ClientOptions{Lookups: 2, Patience: time.Second, Attempts: 1})
	var all sync.WaitGroup
	begun := time.Now()
	for number := 0; number < 2*window+20; number++ {
		all.Add(1)
		go func() {
			defer all.Done()
			short, cancel := context.WithTimeout(ctx, 200*time.Millisecond)
			defer cancel()
			_, err := client.Ask(short, KindLookup, make([]byte, MostRequest))
			if !errors.Is(err, context.DeadlineExceeded) && !errors.Is(err, ErrStuck) {
				t.Error(err)
			}
		}()
	}
	all.Wait()
	if took := time.Since(begun); took > limit/2 {
		t.Error(took)
	}
	for lookups, _ := client.Numbers(); lookups.UnderWay > 0; lookups, _ = client.Numbers() {
		if time.Sleep(time.Millisecond); time.Since(begun) > limit {
			t.Fatal("sessions that are stuck are not closed")
		}
	}
}
