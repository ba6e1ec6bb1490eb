package pathd

import (
	"bytes"
	"context"
	"crypto/ecdsa"
	"crypto/elliptic"
	"crypto/rand"
	"crypto/tls"
	"crypto/x509"
	"crypto/x509/pkix"
	"encoding/binary"
	"errors"
	"fmt"
	"io"
	"math/big"
	"net"
	"strings"
	"sync"
	"testing"
	"time"
)

// clientOf answers a client of a store, and a context for its calls.
func clientOf(t *testing.T, store *store, options ClientOptions) (*Client, context.Context) {
	client := NewClient(store.address, options)
	ctx, cancel := context.WithTimeout(context.Background(), limit)
	t.Cleanup(func() { client.Close(); cancel() })
	return client, ctx
}

func echoes(content []byte) []byte {
	return append([]byte{replied | lookup}, content[1:]...)
}

func TestManyCallersHaveTheirOwnReplies(t *testing.T) {
	client, _ := clientOf(t, running(t, echoes), ClientOptions{Lookups: 3, Window: 8})
	var all sync.WaitGroup
	for caller := 0; caller < 200; caller++ {
		all.Add(1)
		go func(caller int) {
			defer all.Done()
			for number := 0; number < 30; number++ {
				body := bytes.Repeat([]byte(fmt.Sprintf("%d/%d,", caller, number)), 1+caller*number%200)
				isShort, within := number%7 == 3, limit
				if isShort {
					within = time.Duration(caller) * time.Microsecond
				}
				ctx, cancel := context.WithTimeout(context.Background(), within)
				got, err := client.Ask(ctx, KindLookup, body)
				cancel()
				if !isShort && err != nil || err == nil && !bytes.Equal(got, body) {
					t.Errorf("%d, %d: %v", caller, number, err)
				}
			}
		}(caller)
	}
	all.Wait()
	for _, it := range client.lookups.links {
		s := it.open()
		for begun := time.Now(); s != nil && s.underWay() > 0; time.Sleep(time.Millisecond) {
			if time.Since(begun) > limit {
				t.Fatal("requests whose callers have left keep their places")
			}
		}
	}
}

func TestAServerThatIsStartedAgainIsAskedAgain(t *testing.T) {
	store := running(t, taken)
	client, ctx := clientOf(t, store, ClientOptions{})
	for round := 0; round < 3; round++ {
		if _, err := client.Lookup(ctx, 1, 2); err != nil {
			t.Error(err)
		}
		if _, err := client.Purge(ctx, time.Unix(0, 0)); err != nil {
			t.Error(err)
		}
		if _, err := client.Remove(ctx, Up, [32]byte{}); err != nil {
			t.Error(err)
		}
		store.stop()
		store.start()
	}
}

func TestACallThatIsLostIsSentAgainUnlessItIsARemoval(t *testing.T) {
	store := running(t, silent)
	client, ctx := clientOf(t, store, ClientOptions{})
	for number, ask := range []func() (Ack, error){
		func() (Ack, error) { return client.Purge(ctx, time.Unix(0, 0)) },
		func() (Ack, error) { return client.Remove(ctx, Up, [32]byte{}) },
	} {
		store.setAnswer(silent)
		done := make(chan error, 1)
		go func() {
			_, err := ask()
			done <- err
		}()
		store.waitFor(2*number + 1)
		store.stop()
		store.setAnswer(taken)
		store.start()
		err := <-done
		var ended *SessionError
		if isRemoval := number == 1; isRemoval != (errors.As(err, &ended) && ended.Sent) || !isRemoval && err != nil {
			t.Errorf("%d: %v", number, err)
		}
	}
	if commands, _ := store.came(); len(commands) != 3 {
		t.Errorf("%d commands", len(commands))
	}
}

func TestWhatIsRefusedForNowIsSentAgain(t *testing.T) {
	for _, code := range []Code{NoMemory, Busy, Full} {
		var lock sync.Mutex
		count := 0
		client, ctx := clientOf(t, running(t, func(content []byte) []byte {
			lock.Lock()
			defer lock.Unlock()
			if count++; count == 1 {
				return []byte{refused, byte(code)}
			}
			return taken(content)
		}), ClientOptions{})
		if _, err := client.Purge(ctx, time.Unix(0, 0)); (err == nil) != code.IsPassing() || err != nil && err != code {
			t.Errorf("%v: %v", code, err)
		}
	}
}

func TestServersWithoutRoom(t *testing.T) {
	client, ctx := clientOf(t, running(t, refuses(NoSession)), ClientOptions{Attempts: 2})
	_, err := client.Remove(ctx, Up, [32]byte{})
	var ended *SessionError
	if !errors.Is(err, NoSession) || !errors.As(err, &ended) || ended.Sent {
		t.Error(err)
	}
}

func TestASessionThatIsStuckIsClosed(t *testing.T) {
	const patience = 5 * time.Second // as long as a busy machine may take to send and to reply
	store := running(t, silent)
	client, ctx := clientOf(t, store, ClientOptions{Patience: patience})
	var all sync.WaitGroup
	for number := 0; number < 5; number++ {
		all.Add(1)
		go func() {
			defer all.Done()
			if _, err := client.Lookup(ctx, 1, 2); !errors.Is(err, ErrStuck) {
				t.Error(err)
			}
		}()
	}
	all.Wait()
	cancelled, cancel := context.WithCancel(ctx)
	go func() {
		store.waitForLookups(6)
		cancel()
	}()
	if _, err := client.Lookup(cancelled, 1, 2); !errors.Is(err, context.Canceled) && !errors.Is(err, ErrStuck) {
		t.Error(err)
	}
	if _, lookups := store.came(); lookups != 6 {
		t.Errorf("%d lookups", lookups)
	}
	<-client.lookups.links[0].current.Load().ended // though nobody waits for the reply any more
	store.setAnswer(taken)
	if _, err := client.Lookup(ctx, 1, 2); err != nil {
		t.Error(err)
	}
}

func TestASessionWithoutRequestsIsNotStuck(t *testing.T) {
	const patience = 5 * time.Second // as long as a busy machine may take for a reply
	client, ctx := clientOf(t, running(t, taken), ClientOptions{Patience: patience, Attempts: 1})
	if _, err := client.Lookup(ctx, 1, 2); err != nil {
		t.Error(err)
	}
	open := client.lookups.links[0].open()
	time.Sleep(patience + patience/4)
	if _, err := client.Lookup(ctx, 1, 2); err != nil || client.lookups.links[0].open() != open {
		t.Error(err)
	}
}

// A server that reads nothing more doesn't hold up the caller.
func TestACallerDoesNotWaitForTheConnection(t *testing.T) {
	near, far := net.Pipe()
	defer far.Close()
	dialer := Dialer{Connect: func(context.Context, string, string) (net.Conn, error) { return near, nil }}
	client := NewClient("pipe", ClientOptions{Dialer: dialer})
	defer client.Close()
	ctx, cancel := context.WithTimeout(context.Background(), 50*time.Millisecond)
	defer cancel()
	if _, err := client.Lookup(ctx, 1, 2); !errors.Is(err, context.DeadlineExceeded) {
		t.Error(err)
	}
}

// A second session that can't be opened holds up nobody.
func TestCallsDoNotWaitForMoreSessions(t *testing.T) {
	var lock sync.Mutex
	came, bothCame := 0, make(chan struct{})
	store := running(t, func(content []byte) []byte {
		lock.Lock()
		defer lock.Unlock()
		if came++; came == 2 {
			close(bothCame)
		}
		return nil
	})
	dials := make(chan struct{}, 2)
	dialer := Dialer{Connect: func(ctx context.Context, network, address string) (net.Conn, error) {
		if dials <- struct{}{}; len(dials) == 1 {
			return new(net.Dialer).DialContext(ctx, network, address)
		}
		<-ctx.Done()
		return nil, ctx.Err()
	}}
	client, ctx := clientOf(t, store, ClientOptions{Dialer: dialer, Lookups: 2})
	ctx, cancel := context.WithCancel(ctx)
	var all sync.WaitGroup
	for number := 0; number < 2; number++ {
		all.Add(1)
		go func() {
			defer all.Done()
			client.Lookup(ctx, 1, 2)
		}()
		for begun := time.Now(); number == 0 && time.Since(begun) < limit; time.Sleep(time.Millisecond) {
			if s := client.lookups.links[1].open(); s != nil && s.underWay() == 1 {
				break
			}
		}
	}
	<-bothCame
	cancel()
	all.Wait()
}

func TestErrorsNameTheServer(t *testing.T) {
	away := newStore(t, taken)
	client, ctx := clientOf(t, away, ClientOptions{Attempts: 1})
	_, err := client.Lookup(ctx, 1, 2)
	var ended *SessionError
	if !errors.As(err, &ended) || ended.Opened || ended.Sent || !strings.Contains(err.Error(), away.address) {
		t.Error(err)
	}
	if _, err := Dial(ctx, away.address); !errors.As(err, &ended) {
		t.Error(err)
	}
}

// certified answers a certificate for a name, and the pool that has it alone.
func certified(t *testing.T, name string) (tls.Certificate, *x509.CertPool) {
	key, err := ecdsa.GenerateKey(elliptic.P256(), rand.Reader)
	if err != nil {
		t.Fatal(err)
	}
	template := &x509.Certificate{
		SerialNumber: big.NewInt(1), Subject: pkix.Name{CommonName: name}, DNSNames: []string{name},
		NotBefore: time.Now().Add(-time.Hour), NotAfter: time.Now().Add(time.Hour),
		IsCA: true, BasicConstraintsValid: true,
	}
	content, err := x509.CreateCertificate(rand.Reader, template, template, &key.PublicKey, key)
	if err != nil {
		t.Fatal(err)
	}
	certificate, err := x509.ParseCertificate(content)
	if err != nil {
		t.Fatal(err)
	}
	pool := x509.NewCertPool()
	pool.AddCert(certificate)
	return tls.Certificate{Certificate: [][]byte{content}, PrivateKey: key}, pool
}

// proxied answers the address of a proxy that ends TLS before a store.
func proxied(t *testing.T, store *store, certificate tls.Certificate) string {
	config := &tls.Config{Certificates: []tls.Certificate{certificate}}
	listener, err := tls.Listen("tcp", "127.0.0.1:0", config)
	if err != nil {
		t.Fatal(err)
	}
	t.Cleanup(func() { listener.Close() })
	go func() {
		for {
			conn, err := listener.Accept()
			if err != nil {
				return
			}
			go func() {
				defer conn.Close()
				behind, err := net.Dial("tcp", store.address)
				if err != nil {
					return
				}
				go io.Copy(conn, behind)
				io.Copy(behind, conn)
			}()
		}
	}()
	return listener.Addr().String()
}

func TestTLS(t *testing.T) {
	certificate, authorities := certified(t, "pathd.example")
	_, others := certified(t, "pathd.example")
	address := proxied(t, running(t, taken), certificate)
	ctx, cancel := context.WithTimeout(context.Background(), limit)
	defer cancel()
	for name, c := range map[string]struct {
		config *tls.Config
		isGood bool
	}{
		"its name":          {&tls.Config{RootCAs: authorities, ServerName: "pathd.example"}, true},
		"another name":      {&tls.Config{RootCAs: authorities, ServerName: "other.example"}, false},
		"the address":       {&tls.Config{RootCAs: authorities}, false},
		"another authority": {&tls.Config{RootCAs: others, ServerName: "pathd.example"}, false},
	} {
		client := NewClient(address, ClientOptions{Dialer: Dialer{TLS: c.config}, Attempts: 1})
		if _, err := client.Lookup(ctx, 1, 2); (err == nil) != c.isGood {
			t.Errorf("%s: %v", name, err)
		}
		client.Close()
	}
}

func TestManyRequestsOfManyBytes(t *testing.T) {
	client, ctx := clientOf(t, running(t, func(content []byte) []byte {
		return append([]byte{replied | lookup}, binary.BigEndian.AppendUint32(nil, uint32(len(content)))...)
	}), ClientOptions{})
	var all sync.WaitGroup
	for number := 0; number < 2*window; number++ {
		all.Add(1)
		go func(number int) {
			defer all.Done()
			body := make([]byte, MostRequest-number)
			got, err := client.Ask(ctx, KindLookup, body)
			if err != nil || binary.BigEndian.Uint32(got) != uint32(1+len(body)) {
				t.Errorf("%d: %x, %v", number, got, err)
			}
		}(number)
	}
	all.Wait()
}
