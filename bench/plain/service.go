package main

import (
	"crypto/sha256"
	"encoding/json"
	"fmt"
	"math"
	"net/http"
	"regexp"
	"sort"
	"strconv"
	"strings"
	"time"
)

const (
	noSubscription = "00000000-0000-4000-8000-000000000000"
	mostVersion    = math.MaxInt32
	mostCovered    = 16384
)

// The states of an intent; a put of the first two needs a key.
const (
	accepted = iota
	activated
	nonconforming
	contingent
)

const down = 2

var (
	states         = []string{"Accepted", "Activated", "Nonconforming", "Contingent"}
	availabilities = []string{"Unknown", "Normal", "Down"}
	idForm         = regexp.MustCompile(`^[0-9a-fA-F]{8}(-[0-9a-fA-F]{4}){3}-[0-9a-fA-F]{12}$`)
	ussForm        = regexp.MustCompile(`^[0-9A-Za-z._-]{1,64}$`)
	errForm        = &denial{http.StatusBadRequest, "P5 FORM"}
	errArea        = &denial{http.StatusRequestEntityTooLarge, "P6 AREA"}
	errLimit       = &denial{http.StatusServiceUnavailable, "P15 LIMIT"}
)

// A service executes requests over its store.
type service struct {
	store  *store
	tokens map[string]caller
	salt   string
}

// A reference is a USS's view of an intent.
type reference struct {
	ID           string `json:"id"`
	Manager      string `json:"manager"`
	OVN          string `json:"ovn,omitempty"`
	State        string `json:"state"`
	Subscription string `json:"subscription_id"`
	TimeEnd      int64  `json:"time_end"`
	TimeStart    int64  `json:"time_start"`
	Availability string `json:"uss_availability"`
	URL          string `json:"uss_base_url"`
	Version      int64  `json:"version"`
}

// seenBy returns the reference of an intent that a USS sees.
func (i *intent) seenBy(uss string) reference {
	seen := reference{i.id, i.manager, "", states[i.state], i.subscription, i.timeEnd, i.timeStart,
		availabilities[i.availability], i.url, i.version}
	if i.manager == uss {
		seen.OVN = i.ovn
	}
	return seen
}

// seenAll returns the references of intents in the order of their ids.
func seenAll(intents []*intent, uss string) []reference {
	sort.Slice(intents, func(a, b int) bool { return intents[a].id < intents[b].id })
	references := make([]reference, len(intents))
	for at, it := range intents {
		references[at] = it.seenBy(uss)
	}
	return references
}

// A notice has the subscriptions of an address that are notified.
type notice struct {
	Subscriptions []notified `json:"subscriptions"`
	URL           string     `json:"uss_base_url"`
}

type notified struct {
	Index int64  `json:"notification_index"`
	ID    string `json:"subscription_id"`
	url   string
}

// A changed is the response to a change of an intent.
type changed struct {
	Reference   reference `json:"operational_intent_reference"`
	Subscribers []notice  `json:"subscribers"`
}

func changedTo(i *intent, uss string, all []notified) changed {
	sort.Slice(all, func(a, b int) bool {
		return all[a].url < all[b].url || all[a].url == all[b].url && all[a].ID < all[b].ID
	})
	notices := []notice{}
	for _, it := range all {
		if len(notices) == 0 || notices[len(notices)-1].URL != it.url {
			notices = append(notices, notice{URL: it.url})
		}
		last := &notices[len(notices)-1]
		last.Subscriptions = append(last.Subscriptions, it)
	}
	return changed{i.seenBy(uss), notices}
}

// isVisible returns whether a text has that many bytes, all of them visible.
func isVisible(text string, least, most int) bool {
	for at := 0; at < len(text); at++ {
		if text[at] < '!' || text[at] > '~' {
			return false
		}
	}
	return least <= len(text) && len(text) <= most
}

func isOVN(text string) bool { return isVisible(text, 16, 128) }

func indexOf(names []string, name string) int {
	for at, it := range names {
		if it == name {
			return at
		}
	}
	return -1
}

// A cell has the range of the cells of level 13 in it.
type cell struct {
	token  string
	lo, hi int64
}

func readCell(token string) (cell, bool) {
	if len(token) < 1 || len(token) > 16 {
		return cell{}, false
	}
	id, err := strconv.ParseUint(token+strings.Repeat("0", 16-len(token)), 16, 64)
	last := id & -id
	if err != nil || id>>61 > 5 || last&0x1555555555555555 == 0 {
		return cell{}, false
	}
	shortest := strings.TrimRight(fmt.Sprintf("%016x", id), "0")
	return cell{shortest, int64((id - last) >> 35), int64((id + last - 1) >> 35)}, true
}

// An extent is a volume or an area in a request.
type extent struct {
	Cells    []string `json:"cells"`
	AltLower *int64   `json:"altitude_lower"`
	AltUpper *int64   `json:"altitude_upper"`
	Start    *int64   `json:"time_start"`
	End      *int64   `json:"time_end"`
}

// A volume is a volume or an area, which has the min or max number for a missing bound.
type volume struct {
	cells                                  []cell
	altLower, altUpper, timeStart, timeEnd int64
}

// read returns the volume of an extent; an area may lack bounds.
func (e *extent) read(mayLack bool) (volume, bool) {
	v := volume{nil, math.MinInt64, math.MaxInt64, math.MinInt64, math.MaxInt64}
	if e == nil || len(e.Cells) < 1 || len(e.Cells) > 512 {
		return v, false
	}
	for _, bound := range []struct {
		sent, into  *int64
		least, most int64
	}{
		{e.AltLower, &v.altLower, -100_000, 1_000_000}, {e.AltUpper, &v.altUpper, -100_000, 1_000_000},
		{e.Start, &v.timeStart, 0, 253_402_300_799}, {e.End, &v.timeEnd, 0, 253_402_300_799},
	} {
		switch {
		case bound.sent != nil && bound.least <= *bound.sent && *bound.sent <= bound.most:
			*bound.into = *bound.sent
		case bound.sent != nil || !mayLack:
			return v, false
		}
	}
	for _, token := range e.Cells {
		c, ok := readCell(token)
		if !ok {
			return v, false
		}
		v.cells = append(v.cells, c)
	}
	return v, v.altLower <= v.altUpper && v.timeStart <= v.timeEnd
}

func (v volume) covers() (count int64) {
	for _, c := range v.cells {
		count += c.hi - c.lo + 1
	}
	return count
}

// A put is the new content of an intent.
type put struct {
	id, ovn, url, subscription string // no OVN for a creation
	volumes                    []volume
	state                      int
	key                        map[string]bool
}

func readPut(r request) (put, error) {
	var body struct {
		Extents      []*extent `json:"extents"`
		Key          []string  `json:"key"`
		State        string    `json:"state"`
		URL          string    `json:"uss_base_url"`
		Subscription string    `json:"subscription_id"`
	}
	body.Subscription = noSubscription
	if json.Unmarshal(r.body, &body) != nil || !idForm.MatchString(r.words[0]) || !idForm.MatchString(body.Subscription) {
		return put{}, errForm
	}
	p := put{id: strings.ToLower(r.words[0]), url: body.URL, subscription: strings.ToLower(body.Subscription),
		state: indexOf(states, body.State), key: make(map[string]bool, len(body.Key))}
	if len(r.words) > 1 {
		p.ovn = r.words[1]
	}
	isForm := isVisible(p.url, 1, 255) && p.state >= 0 && (len(r.words) == 1 || isOVN(p.ovn)) &&
		1 <= len(body.Extents) && len(body.Extents) <= 32 && len(body.Key) <= 4096
	cells, covered := 0, int64(0)
	for _, it := range body.Extents {
		v, ok := it.read(false)
		isForm = isForm && ok
		cells, covered = cells+len(v.cells), covered+v.covers()
		p.volumes = append(p.volumes, v)
	}
	for _, ovn := range body.Key {
		isForm = isForm && isOVN(ovn)
		p.key[ovn] = true
	}
	if !isForm || cells > 2048 {
		return put{}, errForm
	}
	if covered > mostCovered {
		return put{}, errArea
	}
	return p, nil
}

func (s *service) ovn(serial int64) string {
	return fmt.Sprintf("%x", sha256.Sum256([]byte(fmt.Sprintf("dss-ovn|%s|%d", s.salt, serial))))
}

// A setting is the response to a read of an availability.
type setting struct {
	Status struct {
		Availability string `json:"availability"`
		USS          string `json:"uss"`
	} `json:"status"`
	Version string `json:"version"`
}

func settingOf(uss string, state int, version string) (it setting) {
	it.Status.Availability, it.Status.USS, it.Version = availabilities[state], uss, version
	return it
}

func (s *service) readAvailability(r request) (int, any, error) {
	uss := r.words[0]
	if !ussForm.MatchString(uss) {
		return 0, nil, errForm
	}
	s.store.mutex.Lock()
	defer s.store.mutex.Unlock()
	state, version, err := s.store.availability(uss)
	return http.StatusOK, settingOf(uss, state, version), err
}

func (s *service) setAvailability(r request) (int, any, error) {
	uss := r.words[0]
	var body struct {
		Availability string `json:"availability"`
		OldVersion   string `json:"old_version"`
	}
	err := json.Unmarshal(r.body, &body)
	state := indexOf(availabilities, body.Availability)
	if err != nil || !ussForm.MatchString(uss) || state < 0 || len(body.OldVersion) > 128 {
		return 0, nil, errForm
	}
	var version string
	err = s.store.transaction(func() error {
		_, present, err := s.store.availability(uss)
		if err != nil {
			return err
		}
		if present != body.OldVersion {
			return &denial{http.StatusConflict, "P10 VERSION"}
		}
		serial, err := s.store.nextSerial()
		if err != nil {
			return err
		}
		version = s.ovn(serial)
		return s.store.setAvailability(uss, state, version)
	})
	return http.StatusOK, settingOf(uss, state, version), err
}

func (s *service) queryIntents(r request) (int, any, error) {
	var body struct {
		Area *extent `json:"area_of_interest"`
	}
	if json.Unmarshal(r.body, &body) != nil {
		return 0, nil, errForm
	}
	area, ok := body.Area.read(true)
	if !ok {
		return 0, nil, errForm
	}
	if area.covers() > mostCovered {
		return 0, nil, errArea
	}
	s.store.mutex.Lock()
	defer s.store.mutex.Unlock()
	found, err := s.store.meeting([]volume{area})
	return http.StatusOK, map[string]any{"operational_intent_references": seenAll(found, r.caller.uss)}, err
}

func (s *service) readIntent(r request) (int, any, error) {
	if !idForm.MatchString(r.words[0]) {
		return 0, nil, errForm
	}
	s.store.mutex.Lock()
	defer s.store.mutex.Unlock()
	found, err := s.store.intent(strings.ToLower(r.words[0]))
	if err != nil {
		return 0, nil, err
	}
	if found == nil {
		return 0, nil, &denial{http.StatusNotFound, "P7 FOUND"}
	}
	return http.StatusOK, map[string]any{"operational_intent_reference": found.seenBy(r.caller.uss)}, nil
}

func (s *service) createIntent(r request) (int, any, error) {
	p, err := readPut(r)
	if err != nil {
		return 0, nil, err
	}
	var answer changed
	err = s.store.transaction(func() error {
		if there, err := s.store.intent(p.id); err != nil {
			return err
		} else if there != nil {
			return &denial{http.StatusConflict, "P8 FRESH"}
		}
		new := &intent{id: p.id, manager: r.caller.uss}
		if new.availability, _, err = s.store.availability(new.manager); err != nil {
			return err
		}
		answer, err = s.keep(new, p, r.caller, nil)
		return err
	})
	return http.StatusCreated, answer, err
}

func (s *service) updateIntent(r request) (int, any, error) {
	p, err := readPut(r)
	if err != nil {
		return 0, nil, err
	}
	var answer changed
	err = s.store.transaction(func() error {
		old, volumes, err := s.own(p.id, p.ovn, r.caller)
		if err != nil {
			return err
		}
		answer, err = s.keep(old, p, r.caller, volumes)
		return err
	})
	return http.StatusOK, answer, err
}

func (s *service) deleteIntent(r request) (int, any, error) {
	if !idForm.MatchString(r.words[0]) || !isOVN(r.words[1]) {
		return 0, nil, errForm
	}
	var answer changed
	err := s.store.transaction(func() error {
		old, volumes, err := s.own(strings.ToLower(r.words[0]), r.words[1], r.caller)
		if err != nil {
			return err
		}
		if _, err := s.store.nextSerial(); err != nil {
			return err
		}
		told, err := s.store.notify(volumes)
		if err != nil {
			return err
		}
		answer = changedTo(old, r.caller.uss, told)
		return s.store.remove(old)
	})
	return http.StatusOK, answer, err
}

// own returns an intent and its volumes, if it exists, is the caller's own, and has that OVN.
func (s *service) own(id, ovn string, c caller) (*intent, []volume, error) {
	found, err := s.store.intent(id)
	switch {
	case err != nil:
		return nil, nil, err
	case found == nil:
		return nil, nil, &denial{http.StatusNotFound, "P7 FOUND"}
	case found.manager != c.uss:
		return nil, nil, &denial{http.StatusForbidden, "P9 MANAGER"}
	case found.ovn != ovn:
		return nil, nil, &denial{http.StatusConflict, "P10 VERSION"}
	}
	volumes, err := s.store.volumes(found)
	return found, volumes, err
}

// keep stores an intent: a new one, whose version is 0, or one that had these volumes.
func (s *service) keep(i *intent, p put, c caller, old []volume) (changed, error) {
	if err := s.judge(i, p, c); err != nil {
		return changed{}, err
	}
	if i.version == mostVersion {
		return changed{}, errLimit
	}
	serial, err := s.store.nextSerial()
	if err != nil {
		return changed{}, err
	}
	told, err := s.store.notify(append(old, p.volumes...))
	if err != nil {
		return changed{}, err
	}
	i.version, i.serial, i.ovn = i.version+1, serial, s.ovn(serial)
	i.state, i.url, i.subscription = p.state, p.url, p.subscription
	i.timeStart, i.timeEnd = math.MaxInt64, math.MinInt64
	for _, v := range p.volumes {
		if v.timeStart < i.timeStart {
			i.timeStart = v.timeStart
		}
		if v.timeEnd > i.timeEnd {
			i.timeEnd = v.timeEnd
		}
	}
	return changedTo(i, c.uss, told), s.store.put(i, p.volumes)
}

// judge evaluates the rules from P11 on.
func (s *service) judge(i *intent, p put, c caller) error {
	role := strategic
	if p.state >= nonconforming {
		role = monitoring
	}
	if !c.scopes[role] {
		return &denial{http.StatusForbidden, "P11 ROLE"}
	}
	if i.version > 0 && !mayBecome(i.state, p.state) {
		return &denial{http.StatusBadRequest, "P12 CHANGE"}
	}
	isEnded, now := true, time.Now().Unix()
	for _, v := range p.volumes {
		isEnded = isEnded && v.timeEnd <= now
	}
	if isEnded {
		return &denial{http.StatusBadRequest, "P13 ENDED"}
	}
	if p.subscription != noSubscription {
		manager, err := s.store.subscriptionManager(p.subscription)
		if err != nil {
			return err
		}
		if manager != c.uss {
			return &denial{http.StatusBadRequest, "P16 SUBSCRIPTION"}
		}
	}
	if p.state >= nonconforming {
		return nil
	}
	return s.judgeKey(p, c)
}

func mayBecome(old, new int) bool {
	switch old {
	case accepted:
		return true
	case contingent:
		return new == contingent
	}
	return new != accepted
}

// judgeKey evaluates P14: whether the key of a put has all that it needs.
func (s *service) judgeKey(p put, c caller) error {
	met, err := s.store.meeting(p.volumes)
	if err != nil {
		return err
	}
	var lacking []*intent
	for _, it := range met {
		isSpared := it.state == accepted && it.availability == down
		if it.id != p.id && !isSpared && !p.key[it.ovn] {
			lacking = append(lacking, it)
		}
	}
	if len(lacking) == 0 {
		return nil
	}
	return &lack{"P14 KEY", []reference{}, seenAll(lacking, c.uss)}
}
