package pathd

import "time"

// Moment is a moment as frames have it, in half seconds since 1970. A segment is valid before its
// expiry, and a purge drops the segments whose expiry is its moment or before.
type Moment uint64

// MomentOf answers the last moment that is not after a time; 0 where the time is before 1970.
func MomentOf(at time.Time) Moment {
	seconds := at.Unix()
	if seconds < 0 {
		return 0
	}
	return Moment(2*uint64(seconds) + uint64(at.Nanosecond())/uint64(time.Second/2))
}

// Time answers the time of a moment, in UTC.
func (m Moment) Time() time.Time {
	return time.Unix(int64(m/2), int64(m%2)*int64(time.Second/2)).UTC()
}
