//go:build sqlite

package pathdb

import (
	"context"
	"database/sql"
	"flag"
	"fmt"
	"path/filepath"
	"sort"
	"sync"
	"sync/atomic"
	"testing"
	"time"

	_ "github.com/mattn/go-sqlite3"
	"google.golang.org/protobuf/proto"
	"pathd"
	pb "pathd/segmentspb"
)

// The measurements beside SQLite, with the driver of Debian's golang-github-mattn-go-sqlite3-dev:
//
//	PATHD=.. go test -tags sqlite -run BesideSQLite -v ./pathdb -rounds 25 -calls 100
//
// SQLite has the tables that scionproto's path database has, as they are remembered.
var (
	rounds = flag.Int("rounds", 1, "rounds of a measurement, in each of which the databases take turns")
	turns  = flag.Int("calls", 2, "calls in a round, and a tenth as many transactions of 64")
)

// compared is a database with segments.
type compared interface {
	// insert inserts new segments: one by one call, and several by a transaction.
	insert(ctx context.Context, metas []*Meta) error
	// clear deletes segments of these numbers.
	clear(ctx context.Context, from, to int) error
	// get answers how many segments there are from a start to an end.
	get(ctx context.Context, start, end IA) (int, error)
}

var start = IA(1<<48 | 0xff00_0000_0110)

func ofNumber(t testing.TB, number int) *Meta {
	return meta(t, TypeDown, fmt.Sprintf("1-ff00:0:110 %d>1 1-%d", number%65535+1, number+1000), now)
}

func ofNumbers(t testing.TB, from, to int) (metas []*Meta) {
	for number := from; number < to; number++ {
		metas = append(metas, ofNumber(t, number))
	}
	return metas
}

// measured are calls, of which each measurement makes some and answers how long one took in the mean. What is
// inserted is deleted again, which is not timed.
var measured = []struct {
	name string
	take func(t *testing.T, ctx context.Context, size int, db compared) time.Duration
}{
	{"`Insert`", insertByOne},
	{"a transaction of 64", insertBy64},
	{"`Insert` by 16 goroutines, for each", insertBySixteen},
	{"`Get` by both ends, which finds one", getOne},
}

// TestBesideSQLite prints the rows of the page's table, for databases of 10,000 segments: milliseconds of a
// call of pathd's, and how many times as long SQLite's takes. Each is the median of the rounds, with the least
// and the most of them.
func TestBesideSQLite(t *testing.T) {
	const size = 10_000
	ctx := context.Background()
	databases := []compared{openPathd(t), openSQLite(t, "FULL"), openSQLite(t, "NORMAL")}
	for _, db := range databases {
		for from := 0; from < size; from += 200 {
			check(t, db.insert(ctx, ofNumbers(t, from, from+200)))
		}
	}
	for _, it := range measured {
		own, full, normal := []float64{}, []float64{}, []float64{}
		for round := 0; round < *rounds; round++ {
			var took [3]float64
			for turn := range databases {
				number := (round + turn) % len(databases)
				took[number] = float64(it.take(t, ctx, size, databases[number]))
			}
			own = append(own, took[0]/float64(time.Millisecond))
			full, normal = append(full, took[1]/took[0]), append(normal, took[2]/took[0])
		}
		t.Logf("| %s | %s | %s | %s |", it.name, spread(own), spread(full), spread(normal))
	}
}

func spread(of []float64) string {
	sort.Float64s(of)
	return fmt.Sprintf("%.2f (%.2f-%.2f)", of[len(of)/2], of[0], of[len(of)-1])
}

func insertByOne(t *testing.T, ctx context.Context, size int, db compared) time.Duration {
	metas := ofNumbers(t, size, size+*turns)
	begun := time.Now()
	for number := range metas {
		check(t, db.insert(ctx, metas[number:number+1]))
	}
	took := time.Since(begun)
	check(t, db.clear(ctx, size, size+*turns))
	return took / time.Duration(*turns)
}

func insertBy64(t *testing.T, ctx context.Context, size int, db compared) (took time.Duration) {
	metas, count := ofNumbers(t, size, size+64), (*turns+9)/10
	for turn := 0; turn < count; turn++ {
		begun := time.Now()
		check(t, db.insert(ctx, metas))
		took += time.Since(begun)
		check(t, db.clear(ctx, size, size+64))
	}
	return took / time.Duration(count)
}

func insertBySixteen(t *testing.T, ctx context.Context, size int, db compared) time.Duration {
	metas := ofNumbers(t, size, size+*turns)
	var next atomic.Int64
	var all sync.WaitGroup
	begun := time.Now()
	for number := 0; number < 16; number++ {
		all.Add(1)
		go func() {
			defer all.Done()
			for at := next.Add(1); at <= int64(len(metas)); at = next.Add(1) {
				if err := db.insert(ctx, metas[at-1:at]); err != nil {
					t.Error(err)
				}
			}
		}()
	}
	all.Wait()
	took := time.Since(begun)
	check(t, db.clear(ctx, size, size+*turns))
	return took / time.Duration(*turns)
}

func getOne(t *testing.T, ctx context.Context, size int, db compared) time.Duration {
	begun := time.Now()
	for number := 0; number < *turns; number++ {
		count, err := db.get(ctx, start, IA(1<<48|uint64(number*7%size+1000)))
		if check(t, err); count != 1 {
			t.Fatalf("%d segments", count)
		}
	}
	return time.Since(begun) / time.Duration(*turns)
}

func check(t *testing.T, err error) {
	t.Helper()
	if err != nil {
		t.Fatal(err)
	}
}

type byPathd struct{ *Backend }

func openPathd(t *testing.T) compared {
	db := New(pathd.NewClient(newServer(t).Address, pathd.ClientOptions{}))
	t.Cleanup(func() { db.Close() })
	return byPathd{db}
}

func (d byPathd) insert(ctx context.Context, metas []*Meta) error {
	if len(metas) == 1 {
		_, err := d.Insert(ctx, metas[0])
		return err
	}
	tx, err := d.BeginTransaction(ctx, nil)
	if err != nil {
		return err
	}
	for _, it := range metas {
		if _, err := tx.Insert(ctx, it); err != nil {
			return err
		}
	}
	return tx.Commit()
}

func (d byPathd) clear(ctx context.Context, from, to int) (fault error) {
	ended := make(chan error, to-from)
	for number := from; number < to; number++ {
		go func(number int) {
			path, err := pathd.ParsePath(fmt.Sprintf("1-ff00:0:110 %d>1 1-%d", number%65535+1, number+1000))
			if err == nil {
				err = d.remove(ctx, key{TypeDown, path.ID()})
			}
			ended <- err
		}(number)
	}
	for number := from; number < to; number++ {
		if err := <-ended; err != nil {
			fault = err
		}
	}
	return fault
}

func (d byPathd) get(ctx context.Context, start, end IA) (int, error) {
	results, err := d.Get(ctx, &Params{SegTypes: []Type{TypeDown}, StartsAt: []IA{start}, EndsAt: []IA{end}})
	return len(results), err
}

const schema = `
CREATE TABLE Segments(RowID INTEGER PRIMARY KEY AUTOINCREMENT, SegID DATA UNIQUE NOT NULL,
	LastUpdated INTEGER NOT NULL, InfoTs INTEGER NOT NULL, Segment DATA NOT NULL, MaxExpiry INTEGER NOT NULL,
	StartIsdID INTEGER NOT NULL, StartAsID INTEGER NOT NULL, EndIsdID INTEGER NOT NULL, EndAsID INTEGER NOT NULL);
CREATE INDEX StartsAt ON Segments(StartIsdID, StartAsID);
CREATE INDEX EndsAt ON Segments(EndIsdID, EndAsID);
CREATE TABLE IntfToSeg(IsdID INTEGER NOT NULL, AsID INTEGER NOT NULL, IntfID INTEGER NOT NULL, SegRowID INTEGER NOT NULL,
	FOREIGN KEY (SegRowID) REFERENCES Segments(RowID) ON DELETE CASCADE);
CREATE INDEX IntfOfSeg ON IntfToSeg(SegRowID);
CREATE TABLE SegTypes(SegRowID INTEGER NOT NULL, Type INTEGER NOT NULL, UNIQUE (SegRowID, Type),
	FOREIGN KEY (SegRowID) REFERENCES Segments(RowID) ON DELETE CASCADE);
CREATE TABLE HPGroupIDs(SegRowID INTEGER NOT NULL, GroupID INTEGER NOT NULL, UNIQUE (SegRowID, GroupID),
	FOREIGN KEY (SegRowID) REFERENCES Segments(RowID) ON DELETE CASCADE);
`

type bySQLite struct{ *sql.DB }

// openSQLite opens a database with a log of writes, which each commit syncs where synchronous is FULL.
func openSQLite(t *testing.T, synchronous string) compared {
	file := filepath.Join(t.TempDir(), "path.db")
	db, err := sql.Open("sqlite3", "file:"+file+"?_foreign_keys=on&_journal_mode=WAL&_synchronous="+synchronous)
	check(t, err)
	t.Cleanup(func() { db.Close() })
	db.SetMaxOpenConns(1)
	_, err = db.Exec(schema)
	check(t, err)
	return bySQLite{db}
}

func (d bySQLite) insert(ctx context.Context, metas []*Meta) error {
	tx, err := d.BeginTx(ctx, nil)
	if err != nil {
		return err
	}
	defer tx.Rollback()
	for _, it := range metas {
		if err := insertRow(ctx, tx, it); err != nil {
			return err
		}
	}
	return tx.Commit()
}

func insertRow(ctx context.Context, tx *sql.Tx, of *Meta) error {
	it, err := newRow(of.Type, of.Segment)
	if err != nil {
		return err
	}
	packed, err := proto.Marshal(of.Segment)
	if err != nil {
		return err
	}
	var known int
	if err := tx.QueryRowContext(ctx, "SELECT count(*) FROM Segments WHERE SegID = ?", it.id[:]).Scan(&known); err != nil {
		return err
	}
	done, err := tx.ExecContext(ctx, `INSERT INTO Segments (SegID, LastUpdated, InfoTs, Segment, MaxExpiry, StartIsdID, StartAsID, EndIsdID, EndAsID)
		VALUES (?, ?, ?, ?, ?, ?, ?, ?, ?)`, it.id[:], now.UnixNano(), it.Made.Unix(), packed, it.Expires.Unix(),
		it.start().ISD(), it.start().AS(), it.end().ISD(), it.end().AS())
	if err != nil {
		return err
	}
	number, err := done.LastInsertId()
	if err != nil {
		return err
	}
	for _, hop := range it.Path {
		intf := hop.Ingress + hop.Egress // one of them is 0
		if _, err := tx.ExecContext(ctx, "INSERT INTO IntfToSeg VALUES (?, ?, ?, ?)", hop.IsdAs.ISD(), hop.IsdAs.AS(), intf, number); err != nil {
			return err
		}
	}
	if _, err := tx.ExecContext(ctx, "INSERT INTO SegTypes VALUES (?, ?)", number, it.kind); err != nil {
		return err
	}
	_, err = tx.ExecContext(ctx, "INSERT INTO HPGroupIDs VALUES (?, 0)", number)
	return err
}

func (d bySQLite) clear(ctx context.Context, from, to int) error {
	_, err := d.ExecContext(ctx, "DELETE FROM Segments WHERE EndIsdID = 1 AND EndAsID >= ? AND EndAsID < ?", from+1000, to+1000)
	return err
}

func (d bySQLite) get(ctx context.Context, start, end IA) (count int, err error) {
	found, err := d.QueryContext(ctx, `SELECT s.Segment, s.LastUpdated, t.Type, h.GroupID FROM Segments s
		JOIN SegTypes t ON t.SegRowID = s.RowID JOIN HPGroupIDs h ON h.SegRowID = s.RowID
		WHERE t.Type = ? AND s.StartIsdID = ? AND s.StartAsID = ? AND s.EndIsdID = ? AND s.EndAsID = ? ORDER BY s.LastUpdated`,
		TypeDown, start.ISD(), start.AS(), end.ISD(), end.AS())
	if err != nil {
		return 0, err
	}
	defer found.Close()
	for ; found.Next(); count++ {
		var packed []byte
		var updated, kind, group int64
		if err := found.Scan(&packed, &updated, &kind, &group); err != nil {
			return 0, err
		}
		segment := new(pb.PathSegment)
		if err := proto.Unmarshal(packed, segment); err != nil {
			return 0, err
		}
		if _, err := newRow(TypeDown, segment); err != nil {
			return 0, err
		}
	}
	return count, found.Err()
}
