// Package comparison says where BuildKit would end otherwise, vertex by vertex: it does a definition as it was sent by BuildKit's
// rules, and as it runs by those of llbm, side by side, and compares what they make. What executions make it is told.
//
// A comparison is a process (`llbm-rules compare`), so that it can be bounded and killed. It reads a Request, a line of JSON, and
// writes lines of JSON, each of which is a Message. It asks for what executions made, and reads a Reply for each question. Trees
// are in files, as the text of docs/FORMATS.md.
package comparison

import (
	"bufio"
	"encoding/json"
	"io"

	"llbm/daemon/internal/rewriting"
	"llbm/daemon/internal/rules"
)

// A Request says what is compared.
type Request struct {
	Sent     string            `json:"sent"`               // the file of the definition as it was sent
	Numbered []int             `json:"numbered,omitempty"` // the rows of its vertices by llbm's numbers, if these are to be the numbers here
	Run      string            `json:"run,omitempty"`      // that of the definition that runs; it is the same one if this is absent
	Rewrite  bool              `json:"rewrite,omitempty"`  // whether what runs is to be made, by the trees of the sources
	Sources  map[string]string `json:"sources,omitempty"`  // the files of sources' trees by their names
	Rows     map[int]string    `json:"rows,omitempty"`     // the same by rows of the definition as it was sent
	Links    map[int][]string  `json:"links,omitempty"`    // files of such sources that have other names, which are hard links
	// Times are those of files of such sources; of those that are not there no other file has the size and the time.
	Times    map[int]map[string]rules.Time   `json:"times,omitempty"`
	Folders  map[int]map[string]rules.Folder `json:"folders,omitempty"`  // those of what archives unpack to, by rows of such sources
	Known    []rules.Given                   `json:"known,omitempty"`    // what is known of contents for which trees have tokens
	Received bool                            `json:"received,omitempty"` // whether the trees are what BuildKit's client sent
	Executes bool                            `json:"executes,omitempty"` // whether executions can be done on other inputs
	Folder   string                          `json:"folder,omitempty"`   // where trees are written
	Paths    int                             `json:"paths,omitempty"`    // how many paths with the same rules a step has at most
	Result   bool                            `json:"result,omitempty"`   // whether the results are compared too
	Tree     bool                            `json:"tree,omitempty"`     // whether BuildKit's result is written
	Made     string                          `json:"made,omitempty"`     // the file of the result that llbm made, which is checked
}

// A Message is one of a comparison: only one of its fields is set.
type Message struct {
	Run     *Run      `json:"run,omitempty"`
	Step    *Step     `json:"step,omitempty"`
	Needs   *Question `json:"needs,omitempty"`
	Execute *Question `json:"execute,omitempty"`
	Follows *Follows  `json:"follows,omitempty"`
	End     *End      `json:"end,omitempty"`
}

// A Follows says that BuildKit would follow a symbolic link at a vertex of the definition as it was sent, and llbm did not.
type Follows struct {
	Vertex int    `json:"vertex"`
	Words  string `json:"words"`
}

// A Run is the definition that is to run. It comes before all questions. Of its further entries, which are before the last one, it has
// the rows of which they are parts.
type Run struct {
	Definition []byte         `json:"definition"`
	Rows       rewriting.Rows `json:"rows"`
	Parts      []int          `json:"parts,omitempty"`
}

// A Step is an action of a vertex that ends otherwise, or a vertex as a whole (-1). The vertex is one of the definition as it was
// sent, the row its entry; both are -1 for an entry that is no vertex.
type Step struct {
	Vertex int          `json:"vertex"`
	Row    int          `json:"row"`
	Action int          `json:"action"`
	Lines  []rules.Line `json:"lines"`
	More   bool         `json:"more,omitempty"` // whether there are paths that no line counts
}

// A Question asks what an execution made, or what it makes of inputs in files. The vertex is one of the definition that runs, as it is
// before it is divided.
type Question struct {
	Vertex int      `json:"vertex"`
	Row    int      `json:"row"`
	Inputs []string `json:"inputs,omitempty"`
}

// A Reply has what an execution made: its outputs in files, or that it failed, or that this is not known, or not yet: then it is
// asked again after the others.
type Reply struct {
	Vertex  int      `json:"vertex"`
	Outputs []string `json:"outputs,omitempty"`
	Failed  bool     `json:"failed,omitempty"`
	Unknown bool     `json:"unknown,omitempty"`
	Later   bool     `json:"later,omitempty"`
}

// An End is the last message. It has words if the results are compared.
type End struct {
	Agree bool   `json:"agree"`
	Words string `json:"words,omitempty"`
	Fails string `json:"fails,omitempty"` // why BuildKit has no result
	Tree  string `json:"tree,omitempty"`  // the file of BuildKit's result, if it was asked for
}

// mostOfLine bounds a line of JSON.
const mostOfLine = 256 << 20

// A Talk is what one side of a comparison writes and reads.
type Talk struct {
	out   *json.Encoder
	lines *bufio.Scanner
}

// NewTalk returns a side of a comparison.
func NewTalk(in io.Reader, out io.Writer) *Talk {
	t := &Talk{json.NewEncoder(out), bufio.NewScanner(in)}
	t.lines.Buffer(nil, mostOfLine)
	return t
}

// Write writes a line.
func (t *Talk) Write(line any) error { return t.out.Encode(line) }

// Read reads a line.
func (t *Talk) Read(to any) error {
	if !t.lines.Scan() {
		if err := t.lines.Err(); err != nil {
			return err
		}
		return io.ErrUnexpectedEOF
	}
	return json.Unmarshal(t.lines.Bytes(), to)
}
