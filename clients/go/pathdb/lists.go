package pathdb

import (
	"context"

	pb "pathd/segmentspb"
)

// listing is a list of a server of which the segments with ids of a span are wanted.
type listing struct {
	kind       Type
	start, end IA
	within     span
}

// listings answers the lists that have all that is asked for.
func (f filter) listings() (all []listing) {
	for _, kind := range f.types {
		for _, start := range f.starts {
			for _, end := range f.ends {
				for _, within := range f.spans {
					all = append(all, listing{kind, start, end, within})
				}
			}
		}
	}
	return all
}

// find asks the server for the segments that are asked for, whatever their timestamps.
func (b *Backend) find(ctx context.Context, f filter) (rows, error) {
	found := rows{}
	for _, it := range f.listings() {
		if err := b.list(ctx, it, found); err != nil {
			return nil, err
		}
	}
	for key, it := range found {
		if !f.hasInterfaceOf(it) {
			delete(found, key)
		}
	}
	return found, nil
}

// list puts the segments of a list among others. It asks for one page after the other, until the span ends.
func (b *Backend) list(ctx context.Context, wanted listing, found rows) error {
	after := wanted.within.before()
	for {
		page, err := b.server.ListPage(ctx, wanted.kind, wanted.start, wanted.end, after)
		if err != nil {
			return err
		}
		b.counts.pages.Add(1)
		last, err := found.putPage(wanted, page.Segments)
		if err != nil || !page.More || wanted.within.endsBy(last) {
			return err
		}
		after = &last
	}
}

// putPage puts the segments of a page with ids of the span among others, and answers the last id of the
// page.
func (r rows) putPage(wanted listing, page []*pb.PathSegment) (last id, err error) {
	for _, segment := range page {
		it, err := newRow(wanted.kind, segment)
		if err != nil {
			return id{}, err
		}
		if wanted.within.has(it.id) {
			r.put(it)
		}
		last = it.id
	}
	return last, nil
}
