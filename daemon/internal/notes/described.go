package notes

import (
	"encoding/json"
	"strings"
)

// A Described is what is said of a field or of an attribute: Where says where it is.
type Described struct{ Kind, Name, Where, Effect, Advice string }

// Described returns what the table says, in its order; the last one is of any attribute that the table has not.
func (t *Table) Described() []Described {
	var out []Described
	for _, row := range t.Fields {
		out = append(out, Described{"field", row.Name, numbersShown(row.Numbers) + " of an op", row.Effect, row.Advice})
	}
	for _, row := range t.Metadata {
		out = append(out, Described{"metadata", row.Name, numbersShown(row.Numbers) + " of an entry's metadata", row.Effect, row.Advice})
	}
	for _, one := range t.Attributes {
		out = append(out, Described{"attribute", one.Name, "the attribute `" + one.Key + "` of a source", one.Effect, one.Advice})
	}
	other := t.OtherAttribute
	return append(out, Described{"attribute", other.Name, "an attribute of a local source that no table here has", other.Effect, other.Advice})
}

// numbersShown returns the numbers that lead to a field; a repeated field has [] after it.
func numbersShown(numbers []json.RawMessage) string {
	var parts []string
	for _, one := range numbers {
		text := string(one)
		if strings.HasPrefix(text, "[") {
			text = strings.Trim(text, "[]") + "[]"
		}
		parts = append(parts, text)
	}
	return "field " + strings.Join(parts, ".")
}
