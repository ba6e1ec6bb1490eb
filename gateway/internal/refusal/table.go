package refusal

import "google.golang.org/grpc/codes"

// What a client may do is in the status: InvalidArgument is never taken; after ResourceExhausted
// there may be room later; Unavailable may be tried again soon; FailedPrecondition needs an
// operator; after Unknown the registration is kept or not, and may be sent again.
const (
	never    = codes.InvalidArgument
	room     = codes.ResourceExhausted
	soon     = codes.Unavailable
	operator = codes.FailedPrecondition
	unsure   = codes.Unknown
)

// table has the codes of docs/codes.csv.
var table = map[Code]Meaning{
	0x01: {room, "Memory", "memory was refused"},
	0x11: {never, "Truncated", "the bytes end within a field"},
	0x12: {never, "LongVarint", "a number has more than 64 bits"},
	0x13: {never, "BadField", "the number of a field is 0 or too large"},
	0x14: {never, "GroupWire", "a field is a group"},
	0x15: {never, "BadWire", "the wire type of a field is unknown"},
	0x22: {never, "KindOfField", "a known field has another wire type than its own"},
	0x23: {never, "RepeatedMessage", "a message or a type comes twice"},
	0x24: {never, "MissingField", "a message that has to be there is missing"},
	0x25: {never, "Range", "a number is out of its range"},
	0x26: {never, "Chain", "the entries of a segment are no chain"},
	0x27: {never, "Loop", "an AS comes twice in a segment"},
	0x28: {never, "Entries", "a segment has no entries, or more than 64"},
	0x29: {never, "BadType", "there is no such type of segment"},
	0x2a: {never, "TooLarge", "a segment or the registration is too large"},
	0x31: {never, "BadSignature", "the signature of an entry is not good"},
	0x32: {never, "Expired", "a segment has expired"},
	0x33: {never, "Future", "a time lies too far in the future"},
	0x41: {never, "NullDestination", "both sides of the lookup are 0-0"},
	0x42: {never, "IsdOnlyWildcard", "a side has the ISD 0, and an AS other than 0"},
	0x43: {never, "NoCore", "neither side is core"},
	0x51: {soon, "Busy", "too many commands wait to be committed"},
	0x52: {room, "Full", "the rows would not fit the store"},
	0x53: {never, "TooLarge", "the registration does not fit a group"},
	0x54: {operator, "Stopped", "the device of the store has failed"},
	0x55: {room, "Exhausted", "no place is left"},
	0x57: {operator, "OldStore", "the store is of a version that has no removals"},
	0x61: {soon, "NoSeat", "the server has no room for the session"},
	0x62: {unsure, "OutcomeUnknown", "the store stopped before the command was committed"},
	0x63: {unsure, "NotAwaited", "the server waits no longer for the commit"},
	0x64: {operator, "NoCommands", "the server takes no commands here"},
}
