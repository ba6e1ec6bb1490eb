package calls

import (
	"encoding/hex"
	"encoding/json"
	"fmt"
	"io"
	"log"
	"net"
	"sort"
	"strings"
	"time"

	"google.golang.org/grpc/codes"
	"google.golang.org/protobuf/proto"

	"pathd"
	"pathd/gateway/internal/door"
	control "pathd/gateway/internal/pb/controlplanepb"
	"pathd/gateway/internal/roles"
	"pathd/segmentspb"
)

// Format is how a journal writes its lines.
type Format string

// The formats.
const (
	Text Format = "text"
	JSON Format = "json"
)

// Journal has a line for each registration, each removal, and each call that was refused.
type Journal struct {
	format Format
	lines  *log.Logger
}

// NewJournal answers a journal that is written to.
func NewJournal(format Format, to io.Writer) *Journal {
	return &Journal{format, log.New(to, "", 0)}
}

// line is what a line has.
type line struct {
	Time     string    `json:"time"` // by RFC 3339, in UTC
	Method   string    `json:"method"`
	Address  string    `json:"address"`
	Client   string    `json:"client,omitempty"` // by its certificate
	Segments []segment `json:"segments,omitempty"`
	Status   string    `json:"status"` // of gRPC, in words
	Code     string    `json:"code,omitempty"`
	Reason   string    `json:"reason,omitempty"`
}

// segment is one of a registration or a removal. Path and ID are empty where it can't be read, and Path is
// in a removal.
type segment struct {
	Type string `json:"type"`
	Path string `json:"path,omitempty"`
	ID   string `json:"id,omitempty"`
}

// note writes the line of a call that has ended, where it is to have one. request is nil where it was not
// whole.
func (j *Journal) note(m *Method, conn *door.Conn, request []byte, fault *Fault) {
	if j == nil || fault == nil && m.Action != roles.Register && m.Action != roles.Remove {
		return
	}
	it := line{Time: time.Now().UTC().Format(time.RFC3339Nano), Method: m.Path(), Status: codes.OK.String()}
	if conn != nil {
		it.Address, _, _ = net.SplitHostPort(conn.RemoteAddr().String())
	}
	if certificate := conn.Certificate(); certificate != nil {
		it.Client = roles.NameOf(certificate)
	}
	switch m.Action {
	case roles.Register:
		it.Segments = segmentsIn(request)
	case roles.Remove:
		it.Segments = removedBy(request)
	}
	if fault != nil {
		it.Status, it.Code, it.Reason = fault.Status.String(), fault.number(), fault.Text
	}
	if j.format == JSON {
		content, _ := json.Marshal(it)
		j.lines.Print(string(content))
	} else {
		j.lines.Print(it.text())
	}
}

func segmentsIn(registration []byte) (found []segment) {
	read := new(segmentspb.SegmentsRegistrationRequest)
	if proto.Unmarshal(registration, read) != nil {
		return nil
	}
	for kind, list := range read.Segments {
		for _, one := range list.GetSegments() {
			it := segment{Type: nameOf(segmentspb.SegmentType(kind))}
			if its, err := pathd.DecodeSegment(one); err == nil {
				id := its.ID()
				it.Path, it.ID = its.Path.String(), hex.EncodeToString(id[:])
			}
			found = append(found, it)
		}
	}
	sort.SliceStable(found, func(a, b int) bool { return found[a].Type < found[b].Type })
	return found
}

func removedBy(removal []byte) []segment {
	read := new(control.RemoveRequest)
	if proto.Unmarshal(removal, read) != nil || len(removal) == 0 {
		return nil
	}
	return []segment{{Type: nameOf(read.Type), ID: hex.EncodeToString(read.Id)}}
}

func nameOf(kind segmentspb.SegmentType) string {
	return strings.ToLower(strings.TrimPrefix(kind.String(), "SEGMENT_TYPE_"))
}

// text answers a line for readers. What a peer has sent is quoted.
func (l line) text() string {
	out := fmt.Sprintf("%s: %s from %s", l.Method[strings.LastIndexByte(l.Method, '/')+1:], l.Status, l.Address)
	if l.Client != "" {
		out += fmt.Sprintf(", client %q", l.Client)
	}
	for _, one := range l.Segments {
		what := one.Path
		if what == "" {
			what = one.ID
		}
		out += fmt.Sprintf(", %s %q", one.Type, what)
	}
	if l.Reason != "" {
		out += fmt.Sprintf(": %q", l.Reason)
	}
	return out
}
