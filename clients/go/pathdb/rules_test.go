package pathdb

import (
	"bytes"
	"context"
	"encoding/hex"
	"errors"
	"fmt"
	"reflect"
	"sort"
	"sync"
	"testing"
	"time"

	"pathd"
	"pathd/internal/testpathd"
)

// The rules of a path database, each tried with a database, in a transaction, and while the server is killed
// and started again. The segments that
// EncodeSegment makes expire six hours after their timestamp.
var rules = map[string]func(t *testing.T, ctx context.Context, db ReadWrite){
	"the newest of a type and hops": theNewest,
	"types":                         types,
	"ids":                           ids,
	"ends":                          ends,
	"interfaces":                    interfaces,
	"last updates":                  lastUpdates,
	"expiries":                      expiries,
	"deletions":                     deletions,
	"groups":                        groups,
	"next queries":                  nextTimes,
	"pages":                         pages,
}

func TestRules(t *testing.T) {
	for name, rule := range rules {
		t.Run(name, func(t *testing.T) {
			db, _, ctx := started(t)
			rule(t, ctx, db)
		})
		t.Run(name+" in a transaction", func(t *testing.T) {
			db, _, ctx := started(t)
			tx := begun(t, ctx, db)
			rule(t, ctx, tx)
			wanted := all(t, ctx, tx)
			if got := all(t, ctx, db); len(got) != 0 {
				t.Errorf("before the commit: %v", got)
			}
			if err := tx.Commit(); err != nil {
				t.Error(err)
			}
			if got := all(t, ctx, db); !reflect.DeepEqual(got, wanted) {
				t.Errorf("%v, and not %v", got, wanted)
			}
		})
		t.Run(name+" with kills in between", func(t *testing.T) {
			db, server, ctx := started(t)
			rule(t, ctx, &killed{Backend: db, server: server})
		})
	}
}

// killed is a database whose server is killed and started again before each eighth Get, from the first one on.
type killed struct {
	*Backend
	server *testpathd.Server
	reads  int
}

func (k *killed) Get(ctx context.Context, params *Params) (Results, error) {
	if k.reads++; k.reads%8 == 1 {
		k.server.Kill()
		k.server.Restart()
	}
	return k.Backend.Get(ctx, params)
}

const (
	one   = "1-ff00:0:110 1>2 1-ff00:0:111" // its id is on docs/PROTOCOL.md
	oneID = "8adcea68dc57cbbe68da7142af88b68a9d27a590e1d5157c53c2bb2c762345ff"
	two   = "1-ff00:0:110 3>4 2-ff00:0:111"
	three = "2-ff00:0:210 5>6 1-ff00:0:120 7>8 1-ff00:0:111"
)

func theNewest(t *testing.T, ctx context.Context, db ReadWrite) {
	for _, c := range []struct {
		ago    time.Duration
		wanted InsertStats
	}{
		{time.Hour, InsertStats{Inserted: 1}},
		{time.Hour, InsertStats{}},
		{time.Hour - time.Second, InsertStats{Updated: 1}},
		{2 * time.Hour, InsertStats{}},
	} {
		if got, err := db.Insert(ctx, meta(t, TypeUp, one, now.Add(-c.ago))); err != nil || got != c.wanted {
			t.Errorf("%v: %v, %v", c.ago, got, err)
		}
	}
	results, err := db.GetAll(ctx)
	if err != nil || len(results) != 1 || !results[0].LastUpdate.Equal(now.Add(time.Second-time.Hour)) {
		t.Fatalf("%v, %v", results, err)
	}
	if got := results[0]; got.Type != TypeUp || !reflect.DeepEqual(got.HPGroupIDs, []uint64{0}) || made(t, got).Unix() != now.Unix()-3599 {
		t.Errorf("%v", got)
	}
}

func types(t *testing.T, ctx context.Context, db ReadWrite) {
	insert(t, ctx, db, TypeDown, one, two)
	insert(t, ctx, db, TypeUp, one)
	if got, err := db.Insert(ctx, meta(t, TypeUp, one, now.Add(time.Second))); err != nil || got != (InsertStats{Updated: 1}) {
		t.Errorf("%v, %v", got, err)
	}
	finds(t, ctx, db, &Params{SegTypes: []Type{TypeUp}}, "UP "+one)
	finds(t, ctx, db, &Params{SegTypes: []Type{TypeDown}}, "DOWN "+one, "DOWN "+two)
	finds(t, ctx, db, &Params{SegTypes: []Type{TypeCore}})
	finds(t, ctx, db, &Params{SegTypes: []Type{TypeCore, TypeDown, TypeUp, TypeDown}}, "UP "+one, "DOWN "+one, "DOWN "+two)
	finds(t, ctx, db, nil, "UP "+one, "DOWN "+one, "DOWN "+two)
	results, err := db.GetAll(ctx)
	if err != nil || results[0].Type != TypeUp || results[1].Type != TypeDown || made(t, results[1]).Unix() != now.Unix() {
		t.Errorf("%v, %v", results, err)
	}
}

func ids(t *testing.T, ctx context.Context, db ReadWrite) {
	insert(t, ctx, db, TypeDown, one, two, three)
	insert(t, ctx, db, TypeCore, one)
	whole, err := hex.DecodeString(oneID)
	if err != nil {
		t.Fatal(err)
	}
	for size := 1; size <= len(whole); size++ {
		finds(t, ctx, db, &Params{SegIDs: [][]byte{whole[:size]}, SegTypes: []Type{TypeDown}}, "DOWN "+one)
	}
	finds(t, ctx, db, &Params{SegIDs: [][]byte{whole}}, "DOWN "+one, "CORE "+one)
	finds(t, ctx, db, &Params{SegIDs: [][]byte{whole, whole[:3], {0x8b}}, SegTypes: []Type{TypeCore}}, "CORE "+one)
	finds(t, ctx, db, &Params{SegIDs: [][]byte{append(append([]byte(nil), whole[:31]...), 0xfe)}})
	finds(t, ctx, db, &Params{SegIDs: [][]byte{{0x8a, 0xdc, 0xeb}}})
	for _, wrong := range [][]byte{nil, make([]byte, 33)} {
		if _, err := db.Get(ctx, &Params{SegIDs: [][]byte{whole, wrong}}); !errors.Is(err, ErrID) {
			t.Errorf("%x: %v", wrong, err)
		}
	}
}

func ends(t *testing.T, ctx context.Context, db ReadWrite) {
	insert(t, ctx, db, TypeDown, one, two, three)
	for _, c := range []struct {
		starts, ends []string
		wanted       []string
	}{
		{[]string{"1-ff00:0:110"}, nil, []string{one, two}},
		{[]string{"2-ff00:0:210"}, nil, []string{three}},
		{nil, []string{"1-ff00:0:111"}, []string{one, three}},
		{nil, []string{"1-ff00:0:120"}, nil},
		{[]string{"1-0"}, nil, []string{one, two}},
		{[]string{"0-ff00:0:110"}, nil, []string{one, two}},
		{nil, []string{"0-ff00:0:111"}, []string{one, two, three}},
		{nil, []string{"2-0"}, []string{two}},
		{[]string{"0-0"}, []string{"0-0"}, []string{one, two, three}},
		{[]string{"1-ff00:0:110"}, []string{"1-ff00:0:111"}, []string{one}},
		{[]string{"1-0", "2-ff00:0:210"}, []string{"1-ff00:0:111", "1-ff00:0:112"}, []string{one, three}},
		{[]string{"1-0", "1-ff00:0:110"}, []string{"0-ff00:0:111", "2-0"}, []string{one, two}},
		{[]string{"3-0"}, []string{"1-0"}, nil},
	} {
		var wanted []string
		for _, it := range c.wanted {
			wanted = append(wanted, "DOWN "+it)
		}
		finds(t, ctx, db, &Params{StartsAt: ias(t, c.starts), EndsAt: ias(t, c.ends)}, wanted...)
	}
	finds(t, ctx, db, &Params{StartsAt: ias(t, []string{"1-0"}), SegTypes: []Type{TypeUp}})
}

func interfaces(t *testing.T, ctx context.Context, db ReadWrite) {
	insert(t, ctx, db, TypeDown, one, two, three)
	ia := ias(t, []string{"1-ff00:0:110", "1-ff00:0:111", "1-ff00:0:120"})
	for _, c := range []struct {
		asked  []*IntfSpec
		wanted []string
	}{
		{[]*IntfSpec{{ia[0], 1}}, []string{"DOWN " + one}},
		{[]*IntfSpec{{ia[1], 2}}, []string{"DOWN " + one}},
		{[]*IntfSpec{{ia[0], 2}}, nil},
		{[]*IntfSpec{{ia[2], 6}}, []string{"DOWN " + three}},
		{[]*IntfSpec{{ia[2], 7}}, []string{"DOWN " + three}},
		{[]*IntfSpec{{ia[2], 7}, {ia[0], 3}, {ia[2], 9}}, []string{"DOWN " + two, "DOWN " + three}},
	} {
		finds(t, ctx, db, &Params{Intfs: c.asked}, c.wanted...)
	}
	finds(t, ctx, db, &Params{Intfs: []*IntfSpec{{ia[0], 1}}, EndsAt: ias(t, []string{"2-0"})})
}

func lastUpdates(t *testing.T, ctx context.Context, db ReadWrite) {
	for number, path := range []string{one, two, three} {
		if _, err := db.Insert(ctx, meta(t, TypeCore, path, now.Add(time.Duration(number)*time.Second))); err != nil {
			t.Fatal(err)
		}
	}
	at := now.Add(time.Second)
	finds(t, ctx, db, &Params{MinLastUpdate: &at}, "CORE "+three)
	at = at.Add(-time.Nanosecond)
	finds(t, ctx, db, &Params{MinLastUpdate: &at}, "CORE "+two, "CORE "+three)
}

func expiries(t *testing.T, ctx context.Context, db ReadWrite) {
	for number, path := range []string{one, two, three} {
		if _, err := db.Insert(ctx, meta(t, TypeUp, path, now.Add(time.Duration(number)*10*time.Second))); err != nil {
			t.Fatal(err)
		}
	}
	for _, c := range []struct {
		at      time.Duration
		deleted int
		left    []string
	}{
		{6 * time.Hour, 0, []string{"UP " + one, "UP " + two, "UP " + three}},
		{6*time.Hour + time.Nanosecond, 1, []string{"UP " + two, "UP " + three}},
		{6*time.Hour + 10*time.Second, 0, []string{"UP " + two, "UP " + three}},
		{6*time.Hour + 20*time.Second, 1, []string{"UP " + three}},
		{0, 0, []string{"UP " + three}},
	} {
		if got, err := db.DeleteExpired(ctx, now.Add(c.at)); err != nil || got != c.deleted {
			t.Errorf("%v: %d, %v", c.at, got, err)
		}
		finds(t, ctx, db, nil, c.left...)
	}
	insert(t, ctx, db, TypeUp, one)
	finds(t, ctx, db, nil, "UP "+one, "UP "+three)
}

func deletions(t *testing.T, ctx context.Context, db ReadWrite) {
	insert(t, ctx, db, TypeDown, one, two, three)
	insert(t, ctx, db, TypeUp, one)
	for _, wrong := range []string{"", "8x", oneID + "0", "8adc "} {
		if err := db.DeleteSegment(ctx, wrong); !errors.Is(err, ErrID) {
			t.Errorf("%q: %v", wrong, err)
		}
	}
	for _, other := range []string{oneID[:63] + "e", "8adceb", "8adce9"} {
		if err := db.DeleteSegment(ctx, other); err != nil {
			t.Error(err)
		}
	}
	finds(t, ctx, db, nil, "UP "+one, "DOWN "+one, "DOWN "+two, "DOWN "+three)
	if err := db.DeleteSegment(ctx, "8ADCE"); err != nil {
		t.Error(err)
	}
	finds(t, ctx, db, nil, "DOWN "+two, "DOWN "+three)
	insert(t, ctx, db, TypeDown, one)
	if err := db.DeleteSegment(ctx, oneID); err != nil {
		t.Error(err)
	}
	finds(t, ctx, db, nil, "DOWN "+two, "DOWN "+three)
}

func groups(t *testing.T, ctx context.Context, db ReadWrite) {
	stats, err := db.InsertWithHPGroupIDs(ctx, meta(t, TypeDown, one, now), []uint64{NullHPGroupID})
	if err != nil || stats != (InsertStats{Inserted: 1}) {
		t.Errorf("%v, %v", stats, err)
	}
	if stats, err = db.InsertWithHPGroupIDs(ctx, meta(t, TypeDown, two, now), nil); err != nil || stats != (InsertStats{Inserted: 1}) {
		t.Errorf("%v, %v", stats, err)
	}
	for _, hidden := range [][]uint64{{7}, {NullHPGroupID, 7}} {
		if _, err := db.InsertWithHPGroupIDs(ctx, meta(t, TypeDown, three, now), hidden); !errors.Is(err, ErrGroup) {
			t.Error(err)
		}
	}
	finds(t, ctx, db, &Params{HPGroupIDs: []uint64{7, NullHPGroupID}}, "DOWN "+one, "DOWN "+two)
	finds(t, ctx, db, &Params{HPGroupIDs: []uint64{7}})
}

func nextTimes(t *testing.T, ctx context.Context, db ReadWrite) {
	ia := ias(t, []string{"1-ff00:0:110", "1-ff00:0:111"})
	if got, err := db.GetNextQuery(ctx, ia[0], ia[1]); err != nil || !got.IsZero() {
		t.Errorf("%v, %v", got, err)
	}
	for _, c := range []struct {
		next, noted time.Time
		isLater     bool
	}{{now, now, true}, {now, now, false}, {now.Add(-1), now, false}, {now.Add(1), now.Add(1), true}} {
		if got, err := db.InsertNextQuery(ctx, ia[0], ia[1], c.next); err != nil || got != c.isLater {
			t.Errorf("%v: %v, %v", c.next, got, err)
		}
		if got, err := db.GetNextQuery(ctx, ia[0], ia[1]); err != nil || !got.Equal(c.noted) {
			t.Errorf("%v, %v", got, err)
		}
	}
	if got, err := db.GetNextQuery(ctx, ia[1], ia[0]); err != nil || !got.IsZero() {
		t.Errorf("%v, %v", got, err)
	}
}

func pages(t *testing.T, ctx context.Context, db ReadWrite) {
	var wanted []string
	var inserted sync.WaitGroup
	for number := 1; number <= 150; number++ {
		path := numbered(number)
		wanted = append(wanted, "DOWN "+path)
		inserted.Add(1)
		go func() { // a server syncs once for many of them
			defer inserted.Done()
			insert(t, ctx, db, TypeDown, path)
		}()
	}
	inserted.Wait()
	finds(t, ctx, db, nil, wanted...)
	results, err := db.GetAll(ctx)
	if err != nil {
		t.Fatal(err)
	}
	for number := 1; number < len(results); number++ {
		before, after := read(t, results[number-1]).ID(), read(t, results[number]).ID()
		if bytes.Compare(before[:], after[:]) >= 0 {
			t.Errorf("%x is before %x", before, after)
		}
	}
	finds(t, ctx, db, &Params{EndsAt: ias(t, []string{"1-77"})}, "DOWN 1-ff00:0:110 77>1 1-77")
	begin := map[byte][]string{}
	for _, it := range results {
		of := read(t, it).ID()
		begin[of[0]] = append(begin[of[0]], "DOWN "+read(t, it).Path.String())
	}
	for first := 0; first < 256; first += 4 {
		finds(t, ctx, db, &Params{SegTypes: []Type{TypeDown}, SegIDs: [][]byte{{byte(first)}}}, begin[byte(first)]...)
	}
}

// What the rules need.

var now = time.Now().Truncate(time.Second)

func meta(t testing.TB, kind Type, text string, made time.Time) *Meta {
	t.Helper()
	path, err := pathd.ParsePath(text)
	if err != nil {
		t.Fatal(err)
	}
	segment, err := pathd.EncodeSegment(path, made, nil)
	if err != nil {
		t.Fatal(err)
	}
	return &Meta{kind, segment}
}

func insert(t testing.TB, ctx context.Context, db ReadWrite, kind Type, paths ...string) {
	t.Helper()
	for _, it := range paths {
		if got, err := db.Insert(ctx, meta(t, kind, it, now)); err != nil || got != (InsertStats{Inserted: 1}) {
			t.Errorf("%s: %v, %v", it, got, err)
		}
	}
}

func ias(t testing.TB, texts []string) (ias []IA) {
	t.Helper()
	for _, it := range texts {
		ia, err := pathd.ParseIsdAs(it)
		if err != nil {
			t.Fatal(err)
		}
		ias = append(ias, ia)
	}
	return ias
}

func read(t testing.TB, of *Result) pathd.Segment {
	t.Helper()
	read, err := pathd.DecodeSegment(of.Seg)
	if err != nil {
		t.Fatal(err)
	}
	return read
}

func made(t testing.TB, of *Result) time.Time {
	t.Helper()
	return read(t, of).Made
}

// finds fails unless these segments are found, in any order, each as the end of its type's name and its
// path.
func finds(t testing.TB, ctx context.Context, db ReadWrite, params *Params, wanted ...string) {
	t.Helper()
	results, err := db.Get(ctx, params)
	if err != nil {
		t.Fatal(err)
	}
	got := []string{}
	for _, it := range results {
		got = append(got, it.Type.String()[len("SEGMENT_TYPE_"):]+" "+read(t, it).Path.String())
	}
	wanted = append([]string{}, wanted...)
	sort.Strings(got)
	sort.Strings(wanted)
	if !reflect.DeepEqual(got, wanted) {
		t.Errorf("%v:\n%q, and not\n%q", params, got, wanted)
	}
}

// all answers a text of each segment there is, in their order.
func all(t testing.TB, ctx context.Context, db ReadWrite) (texts []string) {
	t.Helper()
	results, err := db.GetAll(ctx)
	if err != nil {
		t.Fatal(err)
	}
	for _, it := range results {
		texts = append(texts, fmt.Sprint(it.Type, read(t, it), it.LastUpdate, it.HPGroupIDs))
	}
	return texts
}
