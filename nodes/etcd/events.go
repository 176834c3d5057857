package main

import (
	"fmt"

	"raftbench"
)

// events is a raft.Logger that keeps what etcd says in its log. It also notes where etcd draws a timeout: wherever a role begins,
// which is told in the log and nowhere else. The number itself doesn't show it, since the same may be drawn again.
type events struct {
	lines       []raftbench.Event
	drewTimeout bool
}

// taken is what was said since it was asked last.
func (l *events) taken() []raftbench.Event {
	lines := l.lines
	l.lines = nil
	return lines
}

func (l *events) put(level, line string) { l.lines = append(l.lines, raftbench.Event{level, line}) }

func (l *events) Debug(v ...interface{})              { l.put("DEBUG", fmt.Sprint(v...)) }
func (l *events) Debugf(f string, v ...interface{})   { l.put("DEBUG", fmt.Sprintf(f, v...)) }
func (l *events) Info(v ...interface{})               { l.put("INFO", fmt.Sprint(v...)) }
func (l *events) Warning(v ...interface{})            { l.put("WARN", fmt.Sprint(v...)) }
func (l *events) Warningf(f string, v ...interface{}) { l.put("WARN", fmt.Sprintf(f, v...)) }
func (l *events) Error(v ...interface{})              { l.put("ERROR", fmt.Sprint(v...)) }
func (l *events) Errorf(f string, v ...interface{})   { l.put("ERROR", fmt.Sprintf(f, v...)) }

func (l *events) Infof(f string, v ...interface{}) {
	switch f {
	case "%x became follower at term %d", "%x became candidate at term %d", "%x became leader at term %d":
		l.drewTimeout = true
	}
	l.put("INFO", fmt.Sprintf(f, v...))
}

// etcd ends at these, and here the script.

func (l *events) Fatal(v ...interface{})            { panic(fmt.Sprint(v...)) }
func (l *events) Fatalf(f string, v ...interface{}) { panic(fmt.Sprintf(f, v...)) }
func (l *events) Panic(v ...interface{})            { panic(fmt.Sprint(v...)) }
func (l *events) Panicf(f string, v ...interface{}) { panic(fmt.Sprintf(f, v...)) }
