package cppki

import (
	"bytes"
	"errors"
	"fmt"
	"sort"
	"time"
)

// Material is a set of TRCs and chains, all verified. It does not change: With answers another one.
type Material struct {
	trcs   map[int64][]*TRC // by ISD, in the order of base and serial numbers
	chains map[ISDAS][]*Chain
}

// NewMaterial answers the material of TRCs and chains. Base TRCs are trusted if all their voters have
// signed; the others have to be updates of one that is there, and chains have to lead to a root.
func NewMaterial(trcs []*TRC, chains []*Chain) (*Material, error) {
	m := &Material{map[int64][]*TRC{}, map[ISDAS][]*Chain{}}
	ordered := append([]*TRC(nil), trcs...)
	sort.SliceStable(ordered, func(i, j int) bool { return ordered[i].isBefore(ordered[j]) })
	for _, trc := range ordered {
		if err := m.addTRC(trc); err != nil {
			return nil, fmt.Errorf("%s: %w", trc.Name(), err)
		}
	}
	for _, chain := range chains {
		if err := m.addChain(chain); err != nil {
			return nil, fmt.Errorf("chain of %v: %w", chain.ISDAS, err)
		}
	}
	return m, nil
}

// With answers the material with further TRCs and chains.
func (m *Material) With(trcs []*TRC, chains []*Chain) (*Material, error) {
	for _, of := range m.trcs {
		trcs = append(trcs[:len(trcs):len(trcs)], of...)
	}
	return NewMaterial(trcs, append(m.All(), chains...))
}

func (t *TRC) isBefore(other *TRC) bool {
	if t.Base != other.Base {
		return t.Base < other.Base
	}
	return t.Serial < other.Serial
}

func (m *Material) addTRC(trc *TRC) error {
	if m.TRC(trc.ISD, trc.Base, trc.Serial) != nil {
		return errors.New("it is there twice")
	}
	if trc.Base == trc.Serial {
		if err := trc.VerifyBase(); err != nil {
			return err
		}
	} else {
		predecessor := m.TRC(trc.ISD, trc.Base, trc.Serial-1)
		if predecessor == nil {
			return errors.New("its predecessor is not there")
		}
		if err := trc.VerifyUpdate(predecessor); err != nil {
			return err
		}
	}
	m.trcs[trc.ISD] = append(m.trcs[trc.ISD], trc)
	return nil
}

func (m *Material) addChain(chain *Chain) error {
	if m.Has(chain) {
		return nil
	}
	anchored := *chain
	anchored.anchors = nil
	err := errors.New("there is no TRC of its ISD")
	for _, trc := range m.trcs[chain.ISDAS.ISD()] {
		it, fault := anchored.anchorIn(trc)
		if fault == nil {
			anchored.anchors = append(anchored.anchors, it)
		} else {
			err = fault
		}
	}
	if len(anchored.anchors) == 0 {
		return err
	}
	m.chains[chain.ISDAS] = append(m.chains[chain.ISDAS], &anchored)
	return nil
}

// Has answers whether a chain is there.
func (m *Material) Has(chain *Chain) bool {
	for _, one := range m.chains[chain.ISDAS] {
		if one.AS.Equal(chain.AS) && one.CA.Equal(chain.CA) {
			return true
		}
	}
	return false
}

// TRC answers the TRC of an ISD, or nil. It is the latest where base and serial number are 0.
func (m *Material) TRC(isd, base, serial int64) *TRC {
	of := m.trcs[isd]
	if base == 0 && serial == 0 && len(of) > 0 {
		return of[len(of)-1]
	}
	for _, one := range of {
		if one.Base == base && one.Serial == serial {
			return one
		}
	}
	return nil
}

// active answers the TRCs of an ISD by which chains are good at a moment: the latest that has begun,
// and its predecessor in the grace period.
func (m *Material) active(isd int64, at time.Time) []*TRC {
	var latest *TRC
	for _, one := range m.trcs[isd] {
		if !at.Before(one.NotBefore) {
			latest = one
		}
	}
	if latest == nil || !latest.Has(at) {
		return nil
	}
	found := []*TRC{latest}
	before := m.TRC(isd, latest.Base, latest.Serial-1)
	if before != nil && latest.Serial > latest.Base && before.Has(at) && at.Before(latest.NotBefore.Add(latest.Grace)) {
		found = append(found, before)
	}
	return found
}

// good answers the chains of an AS's key that are good at a moment.
func (m *Material) good(isdAS ISDAS, keyID []byte, at time.Time) (found []*Chain) {
	trcs := m.active(isdAS.ISD(), at)
	for _, one := range m.chains[isdAS] {
		if bytes.Equal(one.AS.SubjectKeyId, keyID) && one.isGood(trcs, at) {
			found = append(found, one)
		}
	}
	return found
}

// Chains answers the chains of an AS that are valid from a moment to another. An empty key is any.
func (m *Material) Chains(isdAS ISDAS, keyID []byte, since, until time.Time) (found []*Chain) {
	for _, one := range m.chains[isdAS] {
		if (len(keyID) == 0 || bytes.Equal(one.AS.SubjectKeyId, keyID)) && one.covers(Window{since, until}) {
			found = append(found, one)
		}
	}
	return found
}

// All answers all chains.
func (m *Material) All() (found []*Chain) {
	for _, of := range m.chains {
		found = append(found, of...)
	}
	return found
}

// Latest answers the latest TRC of each ISD.
func (m *Material) Latest() (found []*TRC) {
	for _, of := range m.trcs {
		found = append(found, of[len(of)-1])
	}
	return found
}

// Count answers how many TRCs there are.
func (m *Material) Count() (count int) {
	for _, of := range m.trcs {
		count += len(of)
	}
	return count
}

// IsGoodAt answers whether a chain of the material is good at a moment.
func (m *Material) IsGoodAt(chain *Chain, at time.Time) bool {
	return chain.isGood(m.active(chain.ISDAS.ISD(), at), at)
}
