package qtree

// #include <qtree.h>
import "C"

import (
	"fmt"
	"strings"
)

// LineError is a line of tc that is not carried out.
type LineError struct {
	Line        int    // its number in the file, counted from 1
	Code        Code   // why: ErrFaulty, ErrNoCommand, ErrMemory, or a refusal such as ErrExists
	Fault       string // with ErrFaulty the name of the fault, such as "BadNumber"
	Word        int    // with ErrFaulty which word is wrong, counted from 1
	Explanation string // the line with a mark below the word at which it fails, and a sentence on what to do
}

// Error returns the number of the line, the code's name and the explanation.
func (e *LineError) Error() string {
	return fmt.Sprintf("qtree: line %d: %s\n%s", e.Line, e.Code.Name(), strings.TrimRight(e.Explanation, "\n"))
}

// Unwrap returns the code, so that errors.Is finds it.
func (e *LineError) Unwrap() error { return e.Code }

// SetUpError says which lines of a file cannot be carried out. Nothing has changed.
type SetUpError struct {
	Lines []*LineError // the first hundred of them
	Count int          // how many there are
}

// Error returns the errors of the lines.
func (e *SetUpError) Error() string {
	said := make([]string, 0, len(e.Lines)+1)
	for _, line := range e.Lines {
		said = append(said, line.Error())
	}
	if more := e.Count - len(e.Lines); more > 0 {
		said = append(said, fmt.Sprintf("qtree: and %d lines more", more))
	}
	return strings.Join(said, "\n")
}

// Unwrap returns ErrUndone.
func (e *SetUpError) Unwrap() error { return ErrUndone }

// Report is what a set-up did.
type Report struct {
	Lines   uint64 // the lines of the file, including blank lines and comments
	Added   uint64 // how many qdiscs, classes and filters were added
	Changed uint64
	Deleted uint64
}

// Run carries out one line of tc that changes the tree. If it is not carried out, the error is a *LineError, or a Code if the time is out
// of its range or the device is closed.
func (d *Device) Run(line string, now uint64) error {
	var fault C.qtree_fault
	text := []byte(line)
	code := C.qtree_command(&d.device, first(text), C.size_t(len(text)), C.uint64_t(now), &fault)
	if code == C.QTREE_DONE || code == C.QTREE_OUT_OF_RANGE || code == C.QTREE_IS_CLOSED {
		return errorOf(code)
	}
	return lineError(text, 1, code, &fault)
}

// SetUp makes the tree what a whole file of tc lines says, even while packets are queued: what the tree has already stays, with its
// packets. First all lines are tried. If one cannot be carried out, nothing has changed, and the error is a *SetUpError.
func (d *Device) SetUp(text string, now uint64) (Report, error) {
	var did C.qtree_report
	var undone [100]C.qtree_undone
	file := []byte(text)
	code := C.qtree_set_up(&d.device, first(file), C.size_t(len(file)), C.uint64_t(now), &did, &undone[0], C.size_t(len(undone)))
	report := Report{uint64(did.lines), uint64(did.added), uint64(did.changed), uint64(did.deleted)}
	if code != C.QTREE_UNDONE {
		return report, errorOf(code)
	}
	failed := &SetUpError{Count: int(did.undone)}
	lines := strings.Split(text, "\n")
	for i := 0; i < failed.Count && i < len(undone); i++ {
		number := int(undone[i].line)
		failed.Lines = append(failed.Lines, lineError([]byte(lines[number-1]), number, undone[i].code, &undone[i].fault))
	}
	return report, failed
}

func lineError(line []byte, number int, code C.qtree_code, fault *C.qtree_fault) *LineError {
	failed := &LineError{Line: number, Code: Code(code)}
	if code == C.QTREE_FAULTY {
		failed.Fault, failed.Word = C.GoString(C.qtree_fault_name(fault.number)), int(fault.word)
	}
	explanation, err := written(func(text *C.uint8_t, room C.size_t, needed *C.size_t) C.qtree_code {
		return C.qtree_explain(first(line), C.size_t(len(line)), C.uint64_t(number), code, fault, text, room, needed)
	})
	if err != nil {
		explanation = failed.Code.Error()
	}
	failed.Explanation = explanation
	return failed
}

// written calls a function that writes a text, with more room until the text fits.
func written(write func(text *C.uint8_t, room C.size_t, needed *C.size_t) C.qtree_code) (string, error) {
	text, needed := make([]byte, 4096), new(C.size_t)
	for {
		switch code := write(first(text), C.size_t(len(text)), needed); code {
		case C.QTREE_DONE:
			return string(text[:*needed]), nil
		case C.QTREE_ROOM:
			text = make([]byte, *needed)
		default:
			return "", Code(code)
		}
	}
}
