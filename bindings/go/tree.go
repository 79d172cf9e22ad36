package lucernetick

/*
#include "lucernetick.h"

// lt_make_directory, lt_write_file and lt_link with each Go pointer as a separate argument.
static int64_t make_directory(lt_engine *engine, const uint8_t *path, size_t length,
                              uint32_t moment, lt_place *place)
{
    return lt_make_directory(engine, (lt_bytes){path, length}, moment, place);
}

static int64_t write_file(lt_engine *engine, const uint8_t *path, size_t path_length,
                          const uint8_t *contents, size_t length, uint32_t moment, lt_place *place)
{
    return lt_write_file(engine, (lt_bytes){path, path_length}, (lt_bytes){contents, length},
                         moment, place);
}

static int64_t hard_link(lt_engine *engine, const uint8_t *path, size_t length,
                         const uint8_t *new_path, size_t new_length, uint32_t moment,
                         lt_place *place)
{
    return lt_link(engine, (lt_bytes){path, length}, (lt_bytes){new_path, new_length}, moment,
                   place);
}
*/
import "C"

import (
	"errors"
	"fmt"
	parents "path"
	"sort"
	"time"
)

// ErrBlocked: a call of another session, still in progress, blocks the request. The request stays
// in progress, and only RunAll advances it. It may hold a directory until then.
var ErrBlocked = errors.New("lucernetick: " + Blocked.String())

// A StatusError is the reply to a failed request of WriteFiles or Link.
type StatusError struct {
	Code    uint32
	Message string
	Request string // its name and path
}

func (status *StatusError) Error() string {
	return fmt.Sprintf("lucernetick: %s: %s", status.Request, status.Message)
}

// FromFiles makes an engine with these files, as WriteFiles does.
func FromFiles(files map[string][]byte, moment time.Time) (*Engine, error) {
	return engineWith(func(engine *Engine) error { return engine.WriteFiles(files, moment) })
}

// WriteFiles makes or replaces these files, in the order of their paths, with the timestamp moment.
// It drops fractions of a second, and the zero time is 1970. It sends requests in new sessions, to
// which no rule applies. It makes missing parents. Nil contents make a directory.
func (engine *Engine) WriteFiles(files map[string][]byte, moment time.Time) error {
	made, err := timestampOf("moment", moment)
	if err != nil {
		return err
	}
	paths := make([]string, 0, len(files))
	for path, contents := range files {
		if err := checkPath(path); err != nil {
			return err
		}
		if contents != nil && len(namesOf(path)) == 0 {
			return fmt.Errorf("%w: %q is the root, whose contents must be nil", ErrBadPath, path)
		}
		paths = append(paths, path)
	}
	sort.Strings(paths)
	if err := checkParents(files, paths); err != nil {
		return err
	}
	engine.lock.Lock()
	defer engine.lock.Unlock()
	defer engine.hasMoved()
	for _, path := range paths {
		if err := engine.place(path, files[path], C.uint32_t(made)); err != nil {
			return err
		}
	}
	return nil
}

// checkParents checks that no path is below a file.
func checkParents(files map[string][]byte, paths []string) error {
	isFile := map[string]bool{}
	for _, path := range paths {
		isFile[normal(path)] = files[path] != nil
	}
	for _, path := range paths {
		for above := parents.Dir(normal(path)); above != "/"; above = parents.Dir(above) {
			if isFile[above] {
				return fmt.Errorf("%w: %q is below %q, which is a file", ErrBadPath, path, above)
			}
		}
	}
	return nil
}

// Link adds the new path to the file at the old one (a hard link), with the timestamp moment. It
// makes missing parents of the new path. If the new path exists, it returns a StatusError.
func (engine *Engine) Link(old, new string, moment time.Time) error {
	made, err := timestampOf("moment", moment)
	for _, path := range []string{old, new} {
		err = firstOf(err, checkPath(path))
	}
	if err != nil {
		return err
	}
	engine.lock.Lock()
	defer engine.lock.Unlock()
	defer engine.hasMoved()
	var place C.lt_place
	from, to := []byte(old), []byte(new)
	answer := C.hard_link(engine.pointer, start(from), C.size_t(len(from)),
		start(to), C.size_t(len(to)), C.uint32_t(made), &place)
	if place.kind == C.LT_KIND_HARDLINK {
		return refused(answer, place, old+" "+new)
	}
	return refused(answer, place, new[:place.length])
}

// place makes a directory if contents is nil, otherwise a file, and its missing parents.
func (engine *Engine) place(path string, contents []byte, moment C.uint32_t) error {
	var place C.lt_place
	var answer C.int64_t
	name := []byte(path)
	if contents == nil {
		answer = C.make_directory(engine.pointer, start(name), C.size_t(len(name)), moment, &place)
	} else {
		answer = C.write_file(engine.pointer, start(name), C.size_t(len(name)), start(contents),
			C.size_t(len(contents)), moment, &place)
	}
	return refused(answer, place, path[:place.length])
}

// refused returns the error of a request on this path, or nil.
func refused(answer C.int64_t, place C.lt_place, path string) error {
	request := requestName(uint32(place.kind)) + " " + path
	switch {
	case answer <= C.LT_REFUSAL_STATUS_BASE:
		return &StatusError{uint32(C.LT_REFUSAL_STATUS_BASE - answer), message(answer), request}
	case answer == C.LT_REFUSAL_IS_BLOCKED:
		return fmt.Errorf("%s: %w", request, ErrBlocked)
	}
	_, err := checked(answer)
	return err
}

// requestName returns the name of a kind of request.
func requestName(kind uint32) string {
	names := map[uint32]string{
		C.LT_KIND_INIT:     "INIT",
		C.LT_KIND_OPEN:     "OPEN",
		C.LT_KIND_SETSTAT:  "SETSTAT",
		C.LT_KIND_CLOSE:    "CLOSE",
		C.LT_KIND_WRITE:    "WRITE",
		C.LT_KIND_MKDIR:    "MKDIR",
		C.LT_KIND_STAT:     "STAT",
		C.LT_KIND_HARDLINK: "hardlink@openssh.com",
	}
	return names[kind]
}
