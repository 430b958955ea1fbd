package rangesync

// #include <stdint.h>
import "C"

import (
	"fmt"
	"strings"
)

// RefusedError says that a call or a session was refused.
type RefusedError struct {
	// Number is that of docs/PROTOCOL.md, or of c/rangesync.h.
	Number int
	// ByPeer is true where the peer of a session refused it, and false where this side did.
	ByPeer bool
}

// Name is the name of the number, or empty where it has none, as one that a peer may send.
func (e *RefusedError) Name() string { return names[e.Number] }

func (e *RefusedError) Error() string {
	who := "refused"
	if e.ByPeer {
		who = "peer refused"
	}
	return strings.TrimRight(fmt.Sprintf("rangesync: %s %d %s", who, e.Number, e.Name()), " ")
}

// refusedBy is the error of what a call of the library returned.
func refusedBy(number C.uint32_t) error {
	if number == 0 {
		return nil
	}
	return &RefusedError{Number: int(number)}
}

var names = map[int]string{
	1:  "BadHello",
	2:  "FrameLength",
	3:  "Truncated",
	4:  "BadKind",
	5:  "BadBound",
	6:  "EmptyRange",
	7:  "ItemLength",
	8:  "ItemOrder",
	9:  "ItemOutside",
	10: "MarkPadding",
	11: "Trailing",
	12: "TooManyParts",
	20: "Misplaced",
	21: "Stall",
	22: "Gap",
	23: "MissingAnswer",
	24: "MarkCount",
	25: "AnswerRepeats",
	26: "Spent",
	28: "BadOpening",
	29: "BadBounds",
	30: "NotToml",
	31: "Missing",
	32: "BadNumber",
	33: "RowOrder",
	34: "RowAction",
	35: "CapMismatch",
	36: "NoDescent",
	37: "ListTooLong",
	38: "TooDeep",
	39: "BadCertificate",
	40: "Full",
	41: "Busy",
	42: "WritersSpent",
	50: "TableFull",
	51: "Unknown",
	52: "OverBound",
	53: "SerialsSpent",
	54: "GateClosed",
	55: "WrongSet",
	56: "NoShard",
	57: "BadEntry",
	60: "Bind",
	61: "Connect",
	62: "Accept",
	71: "Empty",
	72: "TooLong",
	73: "EmptyRange",
	80: "CannotRead",
	81: "BadItemLine",
	82: "TooManyItems",
	83: "BadScenario",
	84: "BadStep",
	90: "Memory",
	98: "NotThere",
	99: "OtherKind",
}
