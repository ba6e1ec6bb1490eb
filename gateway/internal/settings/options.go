package settings

import (
	"flag"
	"fmt"
	"strconv"
	"strings"
	"time"
)

// help collects a line for each option.
type help struct{ strings.Builder }

func (h *help) add(name, value, text string) {
	head := "--" + name
	if value != "" {
		head += " " + value
	}
	fmt.Fprintf(h, "  %-24s %s\n", head, text)
}

// adder adds options to a set of them.
type adder struct {
	set  *flag.FlagSet
	help *help
}

// value is an option whose text a function reads.
type value struct {
	text string
	read func(string) error
}

// String answers the text that was read last.
func (v *value) String() string { return v.text }

// Set reads a text.
func (v *value) Set(text string) error {
	v.text = text
	return v.read(text)
}

func (a adder) text(to *string, name, kind, text string) {
	a.set.StringVar(to, name, "", text)
	a.help.add(name, kind, text)
}

func (a adder) address(to *string, name, otherwise, text string) {
	*to = otherwise
	a.set.Var(&value{otherwise, func(text string) error {
		*to = text
		return checkAddress(text)
	}}, name, text)
	a.help.add(name, "ADDR", fmt.Sprintf("%s [%s]", text, otherwise))
}

func (a adder) addresses(to *[]string, name, otherwise, text string) {
	*to = []string{otherwise}
	a.set.Var(&value{otherwise, func(text string) error {
		*to = strings.Split(text, ",")
		known := map[string]bool{}
		for _, it := range *to {
			if known[it] {
				return fmt.Errorf("%q is there twice", it)
			}
			known[it] = true
			if err := checkAddress(it); err != nil {
				return err
			}
		}
		return nil
	}}, name, text)
	a.help.add(name, "ADDR,..", fmt.Sprintf("%s [%s]", text, otherwise))
}

func (a adder) number(to *int, name string, otherwise, least, most int, text string) {
	*to = otherwise
	a.set.Var(&value{strconv.Itoa(otherwise), func(text string) (err error) {
		if *to, err = strconv.Atoi(text); err != nil || *to < least || *to > most {
			return fmt.Errorf("not a number from %d to %d", least, most)
		}
		return nil
	}}, name, text)
	text = fmt.Sprintf("%s, %d to %d", text, least, most)
	if otherwise >= least {
		text += fmt.Sprintf(" [%d]", otherwise)
	}
	a.help.add(name, "N", text)
}

func (a adder) seconds(to *time.Duration, name string, otherwise time.Duration, text string) {
	*to = otherwise
	a.set.Var(&value{fmt.Sprint(otherwise.Seconds()), func(text string) error {
		seconds, err := strconv.ParseFloat(text, 64)
		if err != nil || !(seconds > 0 && seconds <= mostSeconds) {
			return fmt.Errorf("not seconds above 0, at most %d", mostSeconds)
		}
		*to = time.Duration(seconds * float64(time.Second))
		return nil
	}}, name, text)
	a.help.add(name, "SECONDS", fmt.Sprintf("%s [%v]", text, otherwise.Seconds()))
}
