package wormweekly

import "strconv"

type kind uint8

// The kinds of values, as the library numbers them.
const (
	kindText kind = iota
	kindWhole
	kindNo
	kindYes
)

// An Attr is an attribute: a key with a text, a whole number or a flag.
type Attr struct {
	key   string
	text  string
	whole int64
	kind  kind
}

// String is an attribute whose value is a text.
func String(key, value string) Attr { return Attr{key: key, text: value, kind: kindText} }

// Int is an attribute whose value is a whole number.
func Int(key string, value int64) Attr { return Attr{key: key, whole: value, kind: kindWhole} }

// Bool is an attribute whose value is a flag.
func Bool(key string, value bool) Attr {
	if value {
		return Attr{key: key, kind: kindYes}
	}
	return Attr{key: key, kind: kindNo}
}

// Key is the key.
func (attr Attr) Key() string { return attr.key }

// Value is the value: a string, an int64 or a bool.
func (attr Attr) Value() any {
	switch attr.kind {
	case kindText:
		return attr.text
	case kindWhole:
		return attr.whole
	default:
		return attr.kind == kindYes
	}
}

// String shows the attribute.
func (attr Attr) String() string {
	switch attr.kind {
	case kindText:
		return attr.key + "=" + strconv.Quote(attr.text)
	case kindWhole:
		return attr.key + "=" + strconv.FormatInt(attr.whole, 10)
	default:
		return attr.key + "=" + strconv.FormatBool(attr.kind == kindYes)
	}
}
