package raftbench

import (
	"encoding/base64"
	"encoding/json"
	"strconv"
)

// line is what is written of an answer so far. A part begins with its name, and a comma unless it is an object's first. It's JSON by hand,
// since encoding/json takes several times as long.
type line []byte

func (l line) name(name string) line {
	if last := l[len(l)-1]; last != '{' && last != '[' {
		l = append(l, ',')
	}
	return append(append(append(l, '"'), name...), '"', ':')
}

func (l line) number(name string, value uint64) line {
	return strconv.AppendUint(l.name(name), value, 10)
}

// more is a number that is left out if it is 0.
func (l line) more(name string, value uint64) line {
	if value == 0 {
		return l
	}
	return l.number(name, value)
}

func (l line) truth(name string, value bool) line { return strconv.AppendBool(l.name(name), value) }

// ifTrue is a truth that is left out if it is false.
func (l line) ifTrue(name string, value bool) line {
	if !value {
		return l
	}
	return l.truth(name, value)
}

func (l line) word(name, value string) line { return l.name(name).quoted(value) }

func (l line) bytes(name string, value []byte) line {
	l = append(l.name(name), '"')
	begun, length := len(l), base64.StdEncoding.EncodedLen(len(value))
	for cap(l) < begun+length {
		l = append(l[:cap(l)], 0)
	}
	l = l[:begun+length]
	base64.StdEncoding.Encode(l[begun:], value)
	return append(l, '"')
}

func (l line) numbers(name string, values []uint64) line {
	l = append(l.name(name), '[')
	for at, value := range values {
		if at > 0 {
			l = append(l, ',')
		}
		l = strconv.AppendUint(l, value, 10)
	}
	return append(l, ']')
}

// ids are left out if there are none.
func (l line) ids(name string, values []uint64) line {
	if len(values) == 0 {
		return l
	}
	return l.numbers(name, values)
}

// list is a part with so many objects; what puts one is given the line and its place.
func (l line) list(name string, count int, put func(line, int) line) line {
	l = append(l.name(name), '[')
	for at := 0; at < count; at++ {
		if at > 0 {
			l = append(l, ',')
		}
		l = append(put(append(l, '{'), at), '}')
	}
	return append(l, ']')
}

// any is a part by encoding/json.
func (l line) any(name string, value any) line {
	text, err := json.Marshal(value)
	if err != nil {
		panic(err)
	}
	return append(l.name(name), text...)
}

func (l line) config(c Config) line {
	l = append(l.name("config"), '{').numbers("voters", c.Voters)
	return append(l.ids("outgoing", c.Outgoing).ids("learners", c.Learners).ids("next", c.Next).ifTrue("auto", c.Auto), '}')
}

func (l line) position(name string, at Position) line {
	return append(append(l.name(name), '{').number("index", at.Index).number("term", at.Term), '}')
}

func (l line) state(s State) line {
	l = l.word("role", string(s.Role)).number("term", s.Term).number("vote", s.Vote).number("lead", s.Lead).number("commit", s.Commit)
	return l.number("applied", s.Applied).bytes("content", s.Content).config(s.Config).truth("ready", s.Ready)
}

func (l line) entries(name string, all []Entry) line {
	return l.list(name, len(all), func(l line, at int) line {
		l = l.number("term", all[at].Term).number("index", all[at].Index)
		if all[at].Change != nil {
			return l.any("change", all[at].Change)
		}
		return l.bytes("data", all[at].Data)
	})
}

// message has a number, under which this process keeps it.
func (l line) message(m Message, own int) line {
	l = l.word("type", m.Type).number("from", m.From).number("to", m.To).more("term", m.Term).more("logTerm", m.LogTerm)
	l = l.more("index", m.Index).more("commit", m.Commit).ifTrue("reject", m.Reject).more("rejectHint", m.RejectHint)
	l = l.ifTrue("transfer", m.Transfer).more("target", m.Target).ifTrue("before_save", m.BeforeSave).number("own", uint64(own))
	if len(m.Entries) > 0 {
		l = l.entries("entries", m.Entries)
	}
	if s := m.Snapshot; s != nil {
		l = append(l.name("snapshot"), '{').number("index", s.Index).number("term", s.Term).bytes("content", s.Content)
		l = append(l.config(s.Config), '}')
	}
	return l
}

// ready has messages whose numbers begin at the given one.
func (l line) ready(r Ready, given int) line {
	l = l.entries("entries", r.Entries).entries("committed", r.Committed).truth("sync", r.Sync)
	l = l.list("messages", len(r.Messages), func(l line, at int) line { return l.message(r.Messages[at], given+at) })
	if h := r.Hard; h != nil {
		l = append(append(l.name("hard"), '{').number("term", h.Term).number("vote", h.Vote).number("commit", h.Commit), '}')
	}
	if r.Snapshot != nil {
		l = l.position("snapshot", *r.Snapshot)
	}
	if len(r.Reads) > 0 {
		l = l.any("reads", r.Reads)
	}
	return l
}

func (l line) views(views []View) line {
	return l.list("views", len(views), func(l line, at int) line {
		v := views[at]
		l = l.number("node", v.Node).word("state", v.State).number("match", v.Match).number("next", v.Next).number("inflight", uint64(v.Inflight))
		return l.truth("waiting", v.Waiting).truth("active", v.Active).number("snapshot", v.Snapshot)
	})
}

func (l line) logEnd(end LogEnd) line {
	return append(append(l.name("log"), '{').number("last", end.Last).number("term", end.Term).number("durable", end.Durable), '}')
}

func (l line) log(log Log) line {
	return l.position("base", log.Base).number("durable", log.Durable).entries("entries", log.Entries)
}

func (l line) events(all []Event) line {
	l = append(l.name("events"), '[')
	for at, event := range all {
		if at > 0 {
			l = append(l, ',')
		}
		l = append(append(append(l, '[').quoted(event[0]), ',').quoted(event[1]), ']')
	}
	return append(l, ']')
}

// quoted is a text as a string of JSON. Few need encoding/json, which escapes.
func (l line) quoted(text string) line {
	for at := 0; at < len(text); at++ {
		if c := text[at]; c < ' ' || c > '~' || c == '"' || c == '\\' {
			escaped, err := json.Marshal(text)
			if err != nil {
				panic(err)
			}
			return append(l, escaped...)
		}
	}
	return append(append(append(l, '"'), text...), '"')
}
