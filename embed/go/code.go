package qtree

// #include <qtree.h>
import "C"

// Code is an error of a call: the number that the library returned. On an error nothing has changed.
//
// Two errors of the same number are equal, so a program compares them: errors.Is(err, qtree.ErrBusy).
type Code uint32

// The errors of calls. A line that is refused gives one of those that begin with ErrNoParent.
const (
	ErrNoParent     Code = C.QTREE_REFUSED_NO_PARENT
	ErrExists       Code = C.QTREE_REFUSED_EXISTS
	ErrNoQdisc      Code = C.QTREE_REFUSED_NO_QDISC
	ErrHandleTaken  Code = C.QTREE_REFUSED_HANDLE_TAKEN
	ErrNotClassful  Code = C.QTREE_REFUSED_NOT_CLASSFUL
	ErrNoClass      Code = C.QTREE_REFUSED_NO_CLASS
	ErrBusy         Code = C.QTREE_REFUSED_BUSY
	ErrCannotChange Code = C.QTREE_REFUSED_CANNOT_CHANGE
	ErrTooDeep      Code = C.QTREE_REFUSED_TOO_DEEP
	ErrTooMany      Code = C.QTREE_REFUSED_TOO_MANY
	ErrSmallBurst   Code = C.QTREE_REFUSED_SMALL_BURST
	ErrNoFilter     Code = C.QTREE_REFUSED_NO_FILTER
	ErrNothing      Code = C.QTREE_NOTHING
	ErrFaulty       Code = C.QTREE_FAULTY
	ErrNoCommand    Code = C.QTREE_NO_COMMAND
	ErrOutOfRange   Code = C.QTREE_OUT_OF_RANGE
	ErrRoom         Code = C.QTREE_ROOM
	ErrUndone       Code = C.QTREE_UNDONE
	ErrClosed       Code = C.QTREE_IS_CLOSED
	ErrOpen         Code = C.QTREE_IS_OPEN
	ErrMemory       Code = C.QTREE_MEMORY
)

// Name returns the code's name, such as "SmallBurst".
func (c Code) Name() string { return C.GoString(C.qtree_code_name(C.qtree_code(c))) }

// Error returns the code's name and a sentence on what happened, and what the program, or the writer of a line, can do.
func (c Code) Error() string {
	return "qtree: " + c.Name() + ": " + C.GoString(C.qtree_code_sentence(C.qtree_code(c)))
}

func errorOf(code C.qtree_code) error {
	if code == C.QTREE_DONE {
		return nil
	}
	return Code(code)
}

// Cause says why a packet is lost. Within one major version of the library causes may be added, up to CauseMost.
type Cause uint32

// The causes. An arrival whose packet is queued gives Kept.
const (
	Kept      Cause = C.QTREE_DONE
	TooLong   Cause = C.QTREE_LOST_TOO_LONG   // longer than the mtu or than a tbf's burst
	NoClass   Cause = C.QTREE_LOST_NO_CLASS   // no filter of a drr takes it
	OverLimit Cause = C.QTREE_LOST_OVER_LIMIT // its pfifo or bfifo has no room
	CoDel     Cause = C.QTREE_LOST_CODEL      // CoDel dropped it
	FatFlow   Cause = C.QTREE_LOST_FAT_FLOW   // an fq_codel that was over its limit dropped it
	Purged    Cause = C.QTREE_LOST_PURGED     // a command removed its qdisc
)

// CauseMost is the greatest number of a cause, for arrays by cause.
const CauseMost = C.QTREE_LOST_MOST

// String returns the cause's name, such as "OverLimit", or "Kept".
func (c Cause) String() string {
	if c == Kept {
		return "Kept"
	}
	return Code(c).Name()
}

// An arrival gives a cause, or an error if the packet has not arrived.
func arrived(code C.qtree_code) (Cause, error) {
	if code == C.QTREE_DONE || bool(C.qtree_is_loss(code)) {
		return Cause(code), nil
	}
	return Kept, Code(code)
}
