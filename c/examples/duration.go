// A Go type for a field such as `"timeout": "1h 30m"` in a configuration. It uses the library for
// C. `go run duration.go TEXT` reads a text as such a field, and prints the duration as a text, as
// a clock and in JSON. pkg-config must find the library.
package main

// #cgo pkg-config: duration_str
// #include <duration_str.h>
import "C"

import (
	"encoding/json"
	"errors"
	"fmt"
	"math"
	"os"
	"time"
	"unsafe"
)

// Duration is a duration that is read from a text and printed as a text.
type Duration struct{ time.Duration }

// UnmarshalText reads a text, in which each number must have its unit.
func (duration *Duration) UnmarshalText(text []byte) error {
	var answer C.struct_duration_str_answer
	var line [C.DURATION_STR_ONE_LINE_BUFFER_SIZE]C.char
	var bytes *C.char
	if len(text) > 0 {
		bytes = (*C.char)(unsafe.Pointer(&text[0]))
	}
	if C.duration_str_one_line(bytes, C.size_t(len(text)), C.DURATION_STR_OPTION_REQUIRE_UNIT, &answer, &line[0]) > 0 {
		return errors.New(C.GoString(&line[0]))
	}
	if answer.nanos > math.MaxInt64 {
		return errors.New("duration of 2^63 nanoseconds or more")
	}
	duration.Duration = time.Duration(answer.nanos)
	return nil
}

// MarshalText writes a text that UnmarshalText reads, unless the duration is below zero.
func (duration Duration) MarshalText() ([]byte, error) {
	if duration.Duration < 0 {
		return nil, errors.New("a negative duration can't be read back")
	}
	return []byte(duration.String()), nil
}

// String prints the duration. A duration below zero, which the library doesn't print, is printed in
// Go's way.
func (duration Duration) String() string {
	if duration.Duration < 0 {
		return duration.Duration.String()
	}
	var text [C.DURATION_STR_FORMAT_BUFFER_SIZE]C.char
	C.duration_str_format(C.uint64_t(duration.Duration), &text[0])
	return C.GoString(&text[0])
}

// Clock prints hours, minutes and seconds, such as 1:02:03. It leaves out what is below a second,
// and prints a duration below zero as zero.
func (duration Duration) Clock() string {
	const h, min, s = C.DURATION_STR_UNIT_HOUR, C.DURATION_STR_UNIT_MINUTE, C.DURATION_STR_UNIT_SECOND
	nanos := duration.Duration
	if nanos < 0 {
		nanos = 0
	}
	var counts [C.DURATION_STR_UNIT_COUNT]C.uint64_t
	const units, none = 1<<h | 1<<min | 1<<s, C.DURATION_STR_ROUNDING_NONE
	C.duration_str_breakdown(0, C.uint64_t(nanos), units, 3, none, &counts[0], nil)
	return fmt.Sprintf("%d:%02d:%02d", counts[h], counts[min], counts[s])
}

func main() {
	var settings struct{ Timeout Duration }
	if len(os.Args) != 2 {
		fmt.Fprintln(os.Stderr, "usage: go run duration.go TEXT")
		os.Exit(2)
	}
	text, _ := json.Marshal(map[string]string{"timeout": os.Args[1]})
	if err := json.Unmarshal(text, &settings); err != nil {
		fmt.Fprintln(os.Stderr, err)
		os.Exit(1)
	}
	text, _ = json.Marshal(settings)
	fmt.Println(settings.Timeout, settings.Timeout.Clock(), string(text))
}
