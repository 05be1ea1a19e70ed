package main

import (
	"context"
	"database/sql"
	"encoding/json"
	"errors"
	"sync"

	_ "github.com/mattn/go-sqlite3"
)

// The level at which cells are compared.
const level = 13

// A store is the tables, over a single connection. Its mutex is held while that is used.
type store struct {
	mutex      sync.Mutex
	conn       *sql.Conn
	statements map[string]*sql.Stmt
}

// An intent includes the current availability of its manager, and the zero id if it references no subscription.
type intent struct {
	num, version, serial, timeStart, timeEnd int64
	state, availability                      int
	id, manager, ovn, url, subscription      string
}

// openStore opens a database exclusively, as dss does: acknowledged changes are on the disk.
func openStore(file string) (*store, error) {
	const settings = "?mode=rw&_journal=WAL&_sync=FULL&_locking=EXCLUSIVE&_fk=1&_mutex=no&_cache_size=-65536"
	db, err := sql.Open("sqlite3", "file:"+file+settings)
	if err != nil {
		return nil, err
	}
	conn, err := db.Conn(context.Background())
	return &store{conn: conn, statements: make(map[string]*sql.Stmt)}, err
}

// prepared returns the statement of a text, which is prepared once.
func (s *store) prepared(text string) (*sql.Stmt, error) {
	if kept := s.statements[text]; kept != nil {
		return kept, nil
	}
	made, err := s.conn.PrepareContext(context.Background(), text)
	if err == nil {
		s.statements[text] = made
	}
	return made, err
}

func (s *store) exec(text string, values ...any) error {
	statement, err := s.prepared(text)
	if err == nil {
		_, err = statement.Exec(values...)
	}
	return err
}

// one reads the only row of a statement, and returns whether it exists.
func (s *store) one(text string, into []any, values ...any) (bool, error) {
	statement, err := s.prepared(text)
	if err != nil {
		return false, err
	}
	err = statement.QueryRow(values...).Scan(into...)
	if errors.Is(err, sql.ErrNoRows) {
		return false, nil
	}
	return err == nil, err
}

// each calls a function with the rows of a statement.
func (s *store) each(text string, row func(*sql.Rows) error, values ...any) error {
	statement, err := s.prepared(text)
	if err != nil {
		return err
	}
	rows, err := statement.Query(values...)
	if err != nil {
		return err
	}
	defer rows.Close()
	for rows.Next() {
		if err := row(rows); err != nil {
			return err
		}
	}
	return rows.Err()
}

// transaction makes a change in a transaction, which is rolled back if that fails.
func (s *store) transaction(change func() error) error {
	s.mutex.Lock()
	defer s.mutex.Unlock()
	if err := s.exec("BEGIN IMMEDIATE"); err != nil {
		return err
	}
	err := change()
	if err == nil {
		err = s.exec("COMMIT")
	}
	if err != nil {
		s.exec("ROLLBACK")
	}
	return err
}

// nextSerial raises the serial by one.
func (s *store) nextSerial() (serial int64, err error) {
	found, err := s.one("UPDATE meta SET serial = serial + 1 WHERE serial < 9223372036854775807 RETURNING serial", []any{&serial})
	if err == nil && !found {
		err = errLimit
	}
	return serial, err
}

func (s *store) availability(uss string) (state int, version string, err error) {
	_, err = s.one("SELECT state, version FROM availability WHERE uss = ?", []any{&state, &version}, uss)
	return state, version, err
}

func (s *store) setAvailability(uss string, state int, version string) error {
	return s.exec("INSERT OR REPLACE INTO availability (uss, state, version) VALUES (?, ?, ?)", uss, state, version)
}

// subscriptionManager returns the manager of a subscription, or nothing.
func (s *store) subscriptionManager(id string) (manager string, err error) {
	_, err = s.one("SELECT manager FROM subscription WHERE id = ?", []any{&manager}, id)
	return manager, err
}

const columns = `
	e.num, e.id, e.manager, e.state, e.version, e.ovn, e.url, IFNULL(a.state, 0), IFNULL(s.id, '` + noSubscription + `'),
	(SELECT MIN(time_start) FROM volume WHERE entity = e.num), (SELECT MAX(time_end) FROM volume WHERE entity = e.num)`

const besides = `
	LEFT JOIN availability a ON a.uss = e.manager
	LEFT JOIN naming n ON n.entity = e.num LEFT JOIN subscription s ON s.num = n.subscription`

func (i *intent) columns() []any {
	return []any{&i.num, &i.id, &i.manager, &i.state, &i.version, &i.ovn, &i.url, &i.availability, &i.subscription,
		&i.timeStart, &i.timeEnd}
}

// intent returns the intent of an id, or nil.
func (s *store) intent(id string) (*intent, error) {
	var i intent
	found, err := s.one("SELECT"+columns+" FROM entity e"+besides+" WHERE e.kind = 0 AND e.id = ?", i.columns(), id)
	if !found {
		return nil, err
	}
	return &i, nil
}

// volumes returns the volumes of an intent.
func (s *store) volumes(i *intent) (volumes []volume, err error) {
	const text = `
		SELECT v.place, v.alt_lower, v.alt_upper, v.time_start, v.time_end, c.token, c.lo, c.hi
		FROM volume v JOIN cell c ON c.entity = v.entity AND c.volume = v.place
		WHERE v.entity = ? ORDER BY v.place, c.place`
	err = s.each(text, func(rows *sql.Rows) error {
		var place int
		var v volume
		var c cell
		err := rows.Scan(&place, &v.altLower, &v.altUpper, &v.timeStart, &v.timeEnd, &c.token, &c.lo, &c.hi)
		if place == len(volumes) {
			volumes = append(volumes, v)
		}
		last := &volumes[len(volumes)-1]
		last.cells = append(last.cells, c)
		return err
	}, i.num)
	return volumes, err
}

// ranges returns where to search for the cells that a volume touches, as lists in JSON: the ranges in which such a cell begins,
// and those of the cells around the volume's own, each once.
func (v volume) ranges() (inside, around string) {
	var begins, holds [][2]int64
	seen := make(map[[2]int64]bool)
	for _, c := range v.cells {
		begins = append(begins, [2]int64{c.lo, c.hi})
		for width := int64(1) << (2 * level); width > c.hi-c.lo+1; width /= 4 {
			lo := c.lo / width * width
			it := [2]int64{lo, lo + width - 1}
			if !seen[it] {
				seen[it] = true
				holds = append(holds, it)
			}
		}
	}
	insideText, _ := json.Marshal(begins)
	aroundText, _ := json.Marshal(holds)
	return string(insideText), string(aroundText)
}

// meeting returns the intents that meet one of some volumes.
func (s *store) meeting(volumes []volume) (found []*intent, err error) {
	const text = `
		WITH touched (entity, volume) AS (
			SELECT c.entity, c.volume FROM json_each(?) r
			CROSS JOIN cell c ON c.lo BETWEEN r.value ->> 0 AND r.value ->> 1
			UNION ALL SELECT c.entity, c.volume FROM json_each(?) r
			CROSS JOIN cell c ON c.lo = r.value ->> 0 AND c.hi = r.value ->> 1)
		SELECT` + columns + `
		FROM touched t CROSS JOIN volume v ON v.entity = t.entity AND v.place = t.volume
		CROSS JOIN entity e ON e.num = t.entity` + besides + `
		WHERE e.kind = 0 AND v.alt_lower <= ? AND v.alt_upper >= ? AND v.time_start <= ? AND v.time_end >= ?`
	seen := make(map[int64]bool)
	for _, v := range volumes {
		inside, around := v.ranges()
		err := s.each(text, func(rows *sql.Rows) error {
			var i intent
			err := rows.Scan(i.columns()...)
			if !seen[i.num] {
				seen[i.num] = true
				found = append(found, &i)
			}
			return err
		}, inside, around, v.altUpper, v.altLower, v.timeEnd, v.timeStart)
		if err != nil {
			return nil, err
		}
	}
	return found, nil
}

// notify raises the indexes of the subscriptions for intents that meet one of some volumes, and returns them.
func (s *store) notify(volumes []volume) (found []notified, err error) {
	const text = `
		WITH touched (subscription) AS (
			SELECT c.subscription FROM json_each(?) r
			CROSS JOIN subscription_cell c ON c.lo BETWEEN r.value ->> 0 AND r.value ->> 1
			UNION ALL SELECT c.subscription FROM json_each(?) r
			CROSS JOIN subscription_cell c ON c.lo = r.value ->> 0 AND c.hi = r.value ->> 1)
		SELECT s.id, s.notes + 1, s.url
		FROM touched t CROSS JOIN subscription s ON s.num = t.subscription
		WHERE s.for_intents AND s.alt_lower <= ? AND s.alt_upper >= ? AND s.time_start <= ? AND s.time_end >= ?`
	seen := make(map[string]bool)
	for _, v := range volumes {
		inside, around := v.ranges()
		err := s.each(text, func(rows *sql.Rows) error {
			var it notified
			err := rows.Scan(&it.ID, &it.Index, &it.url)
			if !seen[it.ID] {
				seen[it.ID] = true
				found = append(found, it)
			}
			return err
		}, inside, around, v.altUpper, v.altLower, v.timeEnd, v.timeStart)
		if err != nil {
			return nil, err
		}
	}
	for _, it := range found {
		if err := s.exec("UPDATE subscription SET notes = ? WHERE id = ?", it.Index, it.ID); err != nil {
			return nil, err
		}
	}
	return found, nil
}

// remove deletes an intent. The tables' own rules delete its rows in other tables.
func (s *store) remove(i *intent) error {
	return s.exec("DELETE FROM entity WHERE num = ?", i.num)
}

// put stores an intent with its volumes: a new one, of version 1, or an existing one.
func (s *store) put(i *intent, volumes []volume) (err error) {
	if i.version == 1 {
		i.num = i.serial
		err = s.exec("INSERT INTO entity (num, kind, id, manager, state, version, serial, ovn, url)"+
			" VALUES (?, 0, ?, ?, ?, ?, ?, ?, ?)", i.num, i.id, i.manager, i.state, i.version, i.serial, i.ovn, i.url)
	} else {
		err = s.exec("UPDATE entity SET state = ?, version = ?, serial = ?, ovn = ?, url = ? WHERE num = ?",
			i.state, i.version, i.serial, i.ovn, i.url, i.num)
		for _, table := range []string{"volume", "naming"} {
			if err == nil {
				err = s.exec("DELETE FROM "+table+" WHERE entity = ?", i.num)
			}
		}
	}
	for place, v := range volumes {
		if err == nil {
			err = s.exec("INSERT INTO volume (entity, place, alt_lower, alt_upper, time_start, time_end)"+
				" VALUES (?, ?, ?, ?, ?, ?)", i.num, place, v.altLower, v.altUpper, v.timeStart, v.timeEnd)
		}
		for at, c := range v.cells {
			if err == nil {
				err = s.exec("INSERT INTO cell (entity, volume, place, token, lo, hi) VALUES (?, ?, ?, ?, ?, ?)",
					i.num, place, at, c.token, c.lo, c.hi)
			}
		}
	}
	if err == nil && i.subscription != noSubscription {
		err = s.exec("INSERT INTO naming (entity, subscription) SELECT ?, num FROM subscription WHERE id = ?",
			i.num, i.subscription)
	}
	return err
}
