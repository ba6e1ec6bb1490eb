// Package numbers has the numbers of the gateway, and writes them as text for Prometheus.
package numbers

import (
	"bytes"
	"fmt"
	"strconv"
)

// Page is a text of numbers, in the format of Prometheus (version 0.0.4).
type Page struct{ bytes.Buffer }

// Counter begins the numbers of a name that only grow.
func (p *Page) Counter(name, help string) { p.family(name, "counter", help) }

// Gauge begins the numbers of a name that grow and fall.
func (p *Page) Gauge(name, help string) { p.family(name, "gauge", help) }

// Histogram begins a histogram.
func (p *Page) Histogram(name, help string) { p.family(name, "histogram", help) }

func (p *Page) family(name, kind, help string) {
	fmt.Fprintf(p, "# HELP %s %s\n# TYPE %s %s\n", name, help, name, kind)
}

// Row writes a number. labels is empty, or such as `pool="lookups"`.
func (p *Page) Row(name, labels string, value float64) {
	p.WriteString(name)
	if labels != "" {
		p.WriteByte('{')
		p.WriteString(labels)
		p.WriteByte('}')
	}
	p.WriteByte(' ')
	p.WriteString(strconv.FormatFloat(value, 'g', -1, 64))
	p.WriteByte('\n')
}
