package trust

import (
	"time"

	"pathd/gateway/internal/numbers"
)

// WriteNumbers writes the numbers of the material and of what was verified.
func (k *Keeper) WriteNumbers(p *numbers.Page) {
	const entries = "pathd_gateway_entries_total"
	p.Counter(entries, "AS entries that were verified, by result; one that was good before is not worked out again.")
	p.Row(entries, `result="good"`, float64(k.counts.good.Load()))
	p.Row(entries, `result="remembered"`, float64(k.counts.remembered.Load()))
	p.Row(entries, `result="refused"`, float64(k.counts.refused.Load()))
	material, now := k.material.Load(), time.Now()
	p.Gauge("pathd_gateway_trcs", "TRCs that are known.")
	p.Row("pathd_gateway_trcs", "", float64(material.Count()))
	good, bad := 0, 0
	var soonest time.Time
	sooner := func(at time.Time) {
		if soonest.IsZero() || at.Before(soonest) {
			soonest = at
		}
	}
	for _, one := range material.All() {
		if material.IsGoodAt(one, now) {
			good++
			sooner(one.Expires())
		} else {
			bad++
		}
	}
	for _, one := range material.Latest() {
		sooner(one.NotAfter)
	}
	p.Gauge("pathd_gateway_chains", "Chains that are known, by whether they are valid now.")
	p.Row("pathd_gateway_chains", `valid="yes"`, float64(good))
	p.Row("pathd_gateway_chains", `valid="no"`, float64(bad))
	p.Gauge("pathd_gateway_trust_expires_seconds", "When the first valid chain or latest TRC expires, in seconds since 1970.")
	p.Row("pathd_gateway_trust_expires_seconds", "", float64(soonest.Unix()))
	if k.fetcher != nil {
		p.Counter("pathd_gateway_fetches_total", "How often a control service was asked for chains and TRCs.")
		p.Row("pathd_gateway_fetches_total", `result="found"`, float64(k.fetcher.found.Load()))
		p.Row("pathd_gateway_fetches_total", `result="failed"`, float64(k.fetcher.failed.Load()))
		p.Row("pathd_gateway_fetches_total", `result="unanswered"`, float64(k.fetcher.unanswered.Load()))
	}
}
