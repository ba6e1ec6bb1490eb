package pathd

import "fmt"

// Code is the error of a request that the server refused. Nothing changed, unless the code
// IsUnsettled. errors.Is(err, pathd.Busy) says whether an error is a certain one.
type Code byte

// The codes of docs/PROTOCOL.md.
const (
	NoMemory        Code = 0x01
	Truncated       Code = 0x11
	LongVarint      Code = 0x12
	BadField        Code = 0x13
	GroupWire       Code = 0x14
	BadWire         Code = 0x15
	KindOfField     Code = 0x22
	RepeatedMessage Code = 0x23
	MissingField    Code = 0x24
	Range           Code = 0x25
	Chain           Code = 0x26
	Loop            Code = 0x27
	Entries         Code = 0x28
	BadType         Code = 0x29
	TooLarge        Code = 0x2a
	BadSignature    Code = 0x31
	Expired         Code = 0x32
	Future          Code = 0x33
	NullDestination Code = 0x41
	IsdOnlyWildcard Code = 0x42
	NoCore          Code = 0x43
	Busy            Code = 0x51
	Full            Code = 0x52
	NoGroup         Code = 0x53
	Stopped         Code = 0x54
	Exhausted       Code = 0x55
	OldStore        Code = 0x57
	NoSession       Code = 0x61
	Unsettled       Code = 0x62
	NotAwaited      Code = 0x63
	NoCommands      Code = 0x64
)

var texts = map[Code]string{
	NoMemory:        "memory was refused",
	Truncated:       "the message ends within a field",
	LongVarint:      "a number has more than 64 bits",
	BadField:        "the number of a field is 0 or too large",
	GroupWire:       "a field is a group",
	BadWire:         "the wire type of a field is unknown",
	KindOfField:     "a known field has another wire type than its own",
	RepeatedMessage: "a message or a type comes twice",
	MissingField:    "a message that is needed is missing",
	Range:           "a number is out of its range",
	Chain:           "the entries of a segment are no chain",
	Loop:            "an AS comes twice in a segment",
	Entries:         "a segment has no entries, or more than 64",
	BadType:         "there is no such type of segment",
	TooLarge:        "a segment or the registration is too large",
	BadSignature:    "the signature of an entry is not good",
	Expired:         "a segment has expired",
	Future:          "a time lies too far in the future",
	NullDestination: "both sides of the lookup are 0-0",
	IsdOnlyWildcard: "a side has the ISD 0, and an AS other than 0",
	NoCore:          "neither side is a core AS",
	Busy:            "too many commands wait to be committed",
	Full:            "the rows would not fit the store",
	NoGroup:         "the command does not fit a group",
	Stopped:         "the device of the store has failed",
	Exhausted:       "no place is left",
	OldStore:        "the store is of a version that has no removals",
	NoSession:       "the server has no room for the session, and has closed it",
	Unsettled:       "the store stopped before the command was committed, which may be kept or lost",
	NotAwaited:      "this side had ended, and the server waits no longer for the commit, which may come yet",
	NoCommands:      "commands are not taken here, but lookups are",
}

// When it helps to send a request again; never after the others.
var again = map[Code]string{
	NoMemory:     "after a pause",
	BadSignature: "once the segment is signed by the key",
	Expired:      "once the segment is made with a later expiry, or the clock is mended",
	Future:       "once the time is nearer, or the clock is mended",
	Busy:         "after a pause",
	Full:         "after a purge",
	Stopped:      "at another server, or after a restart",
	Exhausted:    "at another store",
	OldStore:     "after the store's first checkpoint",
	NoSession:    "on a new connection, after a pause",
	Unsettled:    "at another server, or after a restart",
	NotAwaited:   "on a new connection, after a pause",
	NoCommands:   "at another listener",
}

// Error says what the code means.
func (c Code) Error() string {
	if text, isKnown := texts[c]; isKnown {
		return "pathd: refused: " + text
	}
	return fmt.Sprintf("pathd: refused: code %#02x", byte(c))
}

// Again says when it helps to send the request again; it is empty where it never does.
func (c Code) Again() string {
	return again[c]
}

// IsPassing answers whether nothing changed, and the same request may succeed after a pause.
func (c Code) IsPassing() bool {
	return c == NoMemory || c == Busy || c == NoSession
}

// IsUnsettled answers whether the command may be committed in spite of the refusal.
func (c Code) IsUnsettled() bool {
	return c == Unsettled || c == NotAwaited
}
