package pathdb

import "time"

// filter is what Params ask for. All but later is a matter of a segment's key: two segments of one key are
// both asked for or not.
type filter struct {
	types        []Type
	starts, ends []IA
	spans        []span
	interfaces   []*IntfSpec
	later        *time.Time
}

func newFilter(params *Params) (filter, error) {
	if params == nil {
		params = new(Params)
	}
	f := filter{
		types: params.SegTypes, starts: orAny(params.StartsAt), ends: orAny(params.EndsAt),
		interfaces: params.Intfs, later: params.MinLastUpdate,
	}
	if len(f.types) == 0 {
		f.types = []Type{TypeUp, TypeDown, TypeCore}
	}
	if len(params.HPGroupIDs) > 0 && !hasNull(params.HPGroupIDs) {
		f.types = nil
	}
	for _, start := range params.SegIDs {
		ids, err := spanOf(start)
		if err != nil {
			return filter{}, err
		}
		f.spans = append(f.spans, ids)
	}
	if len(f.spans) == 0 {
		f.spans = []span{every()}
	}
	return f, nil
}

// ofText asks for the segments whose ids begin with these hexadecimal digits.
func ofText(digits string) (filter, error) {
	f, err := newFilter(nil)
	if err != nil {
		return f, err
	}
	ids, err := spanOfText(digits)
	f.spans = []span{ids}
	return f, err
}

func orAny(ias []IA) []IA {
	if len(ias) == 0 {
		return []IA{0}
	}
	return ias
}

func hasNull(groups []uint64) bool {
	for _, it := range groups {
		if it == NullHPGroupID {
			return true
		}
	}
	return false
}

// ofKey asks for the segment of a row's key.
func ofKey(r row) filter {
	only := span{r.id, r.id}
	return filter{types: []Type{r.kind}, starts: []IA{r.start()}, ends: []IA{r.end()}, spans: []span{only}}
}

// asksFor answers whether a segment is asked for, whatever its timestamp.
func (f filter) asksFor(r row) bool {
	return f.hasType(r.kind) && covers(f.starts, r.start()) && covers(f.ends, r.end()) && f.hasID(r.id) && f.hasInterfaceOf(r)
}

func (f filter) hasType(kind Type) bool {
	for _, it := range f.types {
		if it == kind {
			return true
		}
	}
	return false
}

// covers answers whether one of these patterns covers an AS.
func covers(patterns []IA, ia IA) bool {
	for _, it := range patterns {
		if (it.ISD() == 0 || it.ISD() == ia.ISD()) && (it.AS() == 0 || it.AS() == ia.AS()) {
			return true
		}
	}
	return false
}

func (f filter) hasID(of id) bool {
	for _, it := range f.spans {
		if it.has(of) {
			return true
		}
	}
	return false
}

func (f filter) hasInterfaceOf(r row) bool {
	for _, it := range f.interfaces {
		if r.hasInterface(*it) {
			return true
		}
	}
	return len(f.interfaces) == 0
}

// results answers the segments with the timestamps that are asked for.
func (f filter) results(found rows) Results {
	results := Results{}
	for _, it := range found.keys() {
		made := found[it].Made
		if f.later == nil || made.After(*f.later) {
			results = append(results, &Result{found[it].sent, made, []uint64{NullHPGroupID}, it.kind})
		}
	}
	return results
}
