// A program for bench/race. It makes the calls of a script of exec lines over Go's database/sql, each client by a goroutine
// of its own. The driver has a store in memory, and each of its calls takes as many microseconds as the program's word says.
// Like the driver in memory it resets connections and validates them. No report is written.
package main

import (
	"bufio"
	"context"
	"database/sql"
	"database/sql/driver"
	"encoding/json"
	"errors"
	"fmt"
	"os"
	"strconv"
	"strings"
	"sync"
	"time"
)

// fleet is the driver: a store that its connections share, and the time of a call.
type fleet struct {
	lock  sync.Mutex
	store map[string]string
	time  time.Duration
}

type conn struct{ *fleet }

var errUnknown = errors.New("unknown")

func (f *fleet) Connect(context.Context) (driver.Conn, error) { return conn{f}, nil }
func (f *fleet) Driver() driver.Driver                        { return nil }

// take takes the time of a call.
func (f *fleet) take() {
	if f.time > 0 {
		time.Sleep(f.time)
	}
}

func (c conn) Prepare(string) (driver.Stmt, error) { return nil, errUnknown }
func (c conn) Begin() (driver.Tx, error)           { return nil, errUnknown }
func (c conn) Close() error                        { c.take(); return nil }
func (c conn) ResetSession(context.Context) error  { c.take(); return nil }
func (c conn) IsValid() bool                       { c.take(); return true }

// ExecContext carries out a text of the form SET KEY VALUE.
func (c conn) ExecContext(_ context.Context, text string, _ []driver.NamedValue) (driver.Result, error) {
	c.take()
	words := strings.Split(text, " ")
	if len(words) != 3 || words[0] != "SET" {
		return nil, errUnknown
	}
	c.lock.Lock()
	defer c.lock.Unlock()
	c.store[words[1]] = words[2]
	return driver.RowsAffected(1), nil
}

// read returns the texts of each client's lines, and sets the limits of the lines before.
func read(db *sql.DB) (map[string][]string, error) {
	lines := map[string][]string{}
	input := bufio.NewScanner(os.Stdin)
	for input.Scan() {
		words, texts, found := strings.Cut(input.Text(), " [")
		first, rest, _ := strings.Cut(words, " ")
		limit, err := strconv.Atoi(rest)
		switch {
		case first == "maxopen" && err == nil:
			db.SetMaxOpenConns(limit)
		case first == "maxidle" && err == nil:
			db.SetMaxIdleConns(limit)
		case rest == "exec db" && found:
			var text []string
			if err := json.Unmarshal([]byte("["+texts), &text); err != nil || len(text) != 1 {
				return nil, errUnknown
			}
			lines[first] = append(lines[first], text[0])
		default:
			return nil, errUnknown
		}
	}
	return lines, input.Err()
}

// play makes the calls of one client.
func play(db *sql.DB, texts []string) error {
	for _, text := range texts {
		if _, err := db.ExecContext(context.Background(), text); err != nil {
			return err
		}
	}
	return nil
}

func run(micros string) error {
	n, err := strconv.Atoi(micros)
	if err != nil {
		return err
	}
	db := sql.OpenDB(&fleet{store: map[string]string{}, time: time.Duration(n) * time.Microsecond})
	lines, err := read(db)
	if err != nil {
		return err
	}
	ends := make(chan error)
	for _, texts := range lines {
		go func(texts []string) { ends <- play(db, texts) }(texts)
	}
	for range lines {
		if failed := <-ends; failed != nil {
			err = failed
		}
	}
	if err != nil {
		return err
	}
	return db.Close()
}

func main() {
	if err := run(os.Args[len(os.Args)-1]); err != nil {
		fmt.Fprintln(os.Stderr, err)
		os.Exit(1)
	}
}
