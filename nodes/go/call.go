package raftbench

import (
	"bytes"
	"encoding/base64"
	"encoding/json"
)

// call is a line of the bench.
type call struct {
	Start
	Call    string   `json:"call"`
	Data    []byte   `json:"data"`
	Change  Change   `json:"change"`
	V1      bool     `json:"v1"`
	Message *given   `json:"message"`
	Several []*given `json:"messages"`
	Number  *int     `json:"number"`
	Numbers []int    `json:"numbers"`
	Calls   int      `json:"calls"`
	To      uint64   `json:"to"`
	Index   uint64   `json:"index"`
	Ticks   int      `json:"ticks"`
	ID      uint64   `json:"id"`
	Saved   Saved    `json:"saved"`
	Failed  bool     `json:"failed"`
}

// given is a message of the bench: its number, if it was given in this process, and what is left of it.
type given struct {
	Message
	Number *int `json:"own"`
}

// read is a call from its line. One whose parts are words, numbers, truths and lists of numbers is read here; encoding/json reads others,
// and takes several times as long.
func (c *call) read(text []byte) error {
	*c = call{Numbers: c.Numbers[:0]}
	if c.readPlain(bytes.TrimRight(text, "\r\n")) {
		return nil
	}
	*c = call{}
	return json.Unmarshal(text, c)
}

// readPlain answers whether it could read all of a call.
func (c *call) readPlain(text []byte) bool {
	if len(text) < 2 || text[0] != '{' || text[len(text)-1] != '}' || bytes.IndexByte(text, '\\') >= 0 {
		return false
	}
	for rest := text[1 : len(text)-1]; len(rest) > 0; {
		name, after, is := word(rest)
		if !is || len(after) < 2 || after[0] != ':' {
			return false
		}
		if rest, is = c.readPart(string(name), bytes.TrimLeft(after[1:], " ")); !is {
			return false
		}
		if len(rest) > 0 {
			if rest[0] != ',' {
				return false
			}
			rest = bytes.TrimLeft(rest[1:], " ")
		}
	}
	return true
}

// readPart reads a part's value; it answers what comes after it, and whether it is such a part.
func (c *call) readPart(name string, text []byte) (rest []byte, is bool) {
	var found []byte
	switch name {
	case "call":
		found, rest, is = word(text)
		c.Call = string(found)
	case "saved":
		found, rest, is = word(text)
		c.Saved = Saved(found)
	case "data":
		if found, rest, is = word(text); is {
			var err error
			c.Data, err = base64.StdEncoding.DecodeString(string(found))
			is = err == nil
		}
	case "failed":
		c.Failed = bytes.HasPrefix(text, []byte("true"))
		is = c.Failed || bytes.HasPrefix(text, []byte("false"))
		rest = bytes.TrimPrefix(bytes.TrimPrefix(text, []byte("true")), []byte("false"))
	case "numbers":
		rest, is = c.readNumbers(text)
	default:
		rest, is = c.readNumber(name, text)
	}
	return rest, is
}

func (c *call) readNumber(name string, text []byte) (rest []byte, is bool) {
	value, rest, is := number(text)
	switch name {
	case "node":
		c.Node = value
	case "to":
		c.To = value
	case "index":
		c.Index = value
	case "id":
		c.ID = value
	case "ticks":
		c.Ticks = int(value)
	case "calls":
		c.Calls = int(value)
	default:
		return nil, false
	}
	return rest, is
}

// readNumbers reads a list of at least one number.
func (c *call) readNumbers(text []byte) (rest []byte, is bool) {
	var value uint64
	for is = len(text) > 2 && text[0] == '['; is && text[0] != ']'; {
		value, text, is = number(bytes.TrimLeft(text[1:], " "))
		c.Numbers = append(c.Numbers, int(value))
		is = is && len(text) > 0 && (text[0] == ',' || text[0] == ']')
	}
	if !is {
		return nil, false
	}
	return text[1:], true
}

// word is what is between two quotation marks, and what comes after them.
func word(text []byte) (found, rest []byte, is bool) {
	if len(text) < 2 || text[0] != '"' {
		return nil, nil, false
	}
	end := bytes.IndexByte(text[1:], '"') + 1
	if end == 0 {
		return nil, nil, false
	}
	return text[1:end], text[end+1:], true
}

// number is a number without a sign, and what comes after it.
func number(text []byte) (value uint64, rest []byte, is bool) {
	at := 0
	for ; at < len(text) && at < 19 && text[at] >= '0' && text[at] <= '9'; at++ {
		value = 10*value + uint64(text[at]-'0')
	}
	return value, text[at:], at > 0
}
