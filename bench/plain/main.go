// Command plain is a plain service over SQLite's own C library, with the routes and rules of dss. bench/compare compares dss
// with it. It serves a database of format 2 (docs/DATABASE.md) by docs/POLICY.md.
//
// It lacks what is not measured: the routes of constraints and subscriptions, constraints that a key needs, the creation of
// tables, and the handling of malformed requests: the rules H1 to H5, escapes in paths, members of a wrong case, and wrong
// members that are ignored.
package main

import (
	"encoding/json"
	"errors"
	"flag"
	"fmt"
	"io"
	"log"
	"net"
	"net/http"
	"os"
	"regexp"
	"strings"
)

const (
	strategic   = "utm.strategic_coordination"
	monitoring  = "utm.conformance_monitoring_sa"
	arbitration = "utm.availability_arbitration"
)

const mostBody = 1 << 20

// A caller is the owner of a token.
type caller struct {
	uss    string
	scopes map[string]bool
}

// A request has a known route and caller.
type request struct {
	caller caller
	words  []string // the path parameters
	body   []byte
}

// An operation is a method of a route: the scopes that permit it, and its handler.
type operation struct {
	scopes []string
	serve  func(*service, request) (int, any, error)
}

// A route has a path and operations by their methods.
type route struct {
	path       *regexp.Regexp
	operations map[string]operation
}

var (
	planners = []string{strategic, monitoring}
	routes   = []route{
		{regexp.MustCompile(`^/dss/v1/uss_availability/([^/]+)$`), map[string]operation{
			"GET": {[]string{arbitration, strategic, monitoring}, (*service).readAvailability},
			"PUT": {[]string{arbitration}, (*service).setAvailability},
		}},
		{regexp.MustCompile(`^/dss/v1/operational_intent_references/query$`), map[string]operation{
			"POST": {planners, (*service).queryIntents},
		}},
		{regexp.MustCompile(`^/dss/v1/operational_intent_references/([^/]+)$`), map[string]operation{
			"GET": {planners, (*service).readIntent},
			"PUT": {planners, (*service).createIntent},
		}},
		{regexp.MustCompile(`^/dss/v1/operational_intent_references/([^/]+)/([^/]+)$`), map[string]operation{
			"PUT":    {planners, (*service).updateIntent},
			"DELETE": {planners, (*service).deleteIntent},
		}},
	}
)

// A denial is an error that names the broken rule.
type denial struct {
	status  int
	Message string `json:"message"`
}

func (d *denial) Error() string { return d.Message }

// A lack is a denial for an incomplete key.
type lack struct {
	Message     string      `json:"message"`
	Constraints []reference `json:"missing_constraints"`
	Intents     []reference `json:"missing_operational_intents"`
}

func (l *lack) Error() string { return l.Message }

// ServeHTTP answers a request.
func (s *service) ServeHTTP(w http.ResponseWriter, r *http.Request) {
	status, value, err := s.answer(r)
	var denied *denial
	var lacks *lack
	switch {
	case errors.As(err, &denied):
		status, value = denied.status, denied
	case errors.As(err, &lacks):
		status, value = http.StatusConflict, lacks
	case err != nil:
		log.Print(err)
		status, value = http.StatusInternalServerError, denial{Message: "fault"}
	}
	text, err := json.Marshal(value)
	if err != nil {
		log.Print(err)
	}
	w.Header().Set("Content-Type", "application/json")
	w.Header().Set("Content-Length", fmt.Sprint(len(text)))
	w.WriteHeader(status)
	w.Write(text)
}

// answer evaluates the rules P1 to P4, and serves the request.
func (s *service) answer(r *http.Request) (int, any, error) {
	path, _, _ := strings.Cut(r.RequestURI, "?")
	for _, it := range routes {
		words := it.path.FindStringSubmatch(path)
		if words == nil {
			continue
		}
		operation, ok := it.operations[r.Method]
		if !ok {
			return 0, nil, &denial{http.StatusMethodNotAllowed, "P2 METHOD"}
		}
		caller, ok := s.tokens[bearer(r.Header.Get("Authorization"))]
		if !ok {
			return 0, nil, &denial{http.StatusUnauthorized, "P3 TOKEN"}
		}
		for _, scope := range operation.scopes {
			if caller.scopes[scope] {
				body, err := io.ReadAll(io.LimitReader(r.Body, mostBody))
				if err != nil {
					return 0, nil, err
				}
				return operation.serve(s, request{caller, words[1:], body})
			}
		}
		return 0, nil, &denial{http.StatusForbidden, "P4 SCOPE"}
	}
	return 0, nil, &denial{http.StatusNotFound, "P1 ROUTE"}
}

// bearer returns the token in a field Authorization.
func bearer(field string) string {
	scheme, token, _ := strings.Cut(field, " ")
	if !strings.EqualFold(scheme, "bearer") {
		return ""
	}
	return strings.TrimLeft(token, " ")
}

var (
	saltLine   = regexp.MustCompile(`(?m)^salt = "(.*)"$`)
	tokenTable = regexp.MustCompile(`(?m)^text = "(.*)"\nuss = "(.*)"\nscopes = \[(.*)\]$`)
	scopeWord  = regexp.MustCompile(`"([^"]*)"`)
)

// readTokens reads the salt of a token file, and the callers by their tokens. It supports only the TOML of these files.
func readTokens(file string) (string, map[string]caller, error) {
	text, err := os.ReadFile(file)
	if err != nil {
		return "", nil, err
	}
	salt := saltLine.FindStringSubmatch(string(text))
	if salt == nil {
		return "", nil, errors.New("the token file has no salt")
	}
	callers := make(map[string]caller)
	for _, token := range tokenTable.FindAllStringSubmatch(string(text), -1) {
		scopes := make(map[string]bool)
		for _, scope := range scopeWord.FindAllStringSubmatch(token[3], -1) {
			scopes[scope[1]] = true
		}
		callers[token[1]] = caller{token[2], scopes}
	}
	return salt[1], callers, nil
}

func main() {
	tokensFile := flag.String("tokens", "tokens.toml", "the token file")
	file := flag.String("db", "dss.db", "the database")
	port := flag.Int("port", 8080, "the port of 127.0.0.1")
	flag.Parse()
	salt, tokens, err := readTokens(*tokensFile)
	if err != nil {
		log.Fatal(err)
	}
	store, err := openStore(*file)
	if err != nil {
		log.Fatal(err)
	}
	listener, err := net.Listen("tcp", fmt.Sprintf("127.0.0.1:%d", *port))
	if err != nil {
		log.Fatal(err)
	}
	fmt.Fprintf(os.Stderr, "dss: listening on 127.0.0.1:%d\n", *port)
	log.Fatal(http.Serve(listener, &service{store, tokens, salt}))
}
