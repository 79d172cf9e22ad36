//go:build cgo && linux && amd64

package lucernetick

import (
	"bytes"
	"encoding/binary"
	"strings"
)

// A Request is a request that the server is about to read. Fields that its kind does not have are 0
// or empty.
type Request struct {
	Session uint64
	Kind    Kind
	Path    string // absolute, in normal form; of a rename or a link the old path; of a request by
	// handle the path that the handle was opened with
	NewPath string
	Handle  uint64 // the number of the call that opened it
	Offset  uint64
	Length  uint64 // the number of bytes requested or written
	Flags   OpenFlag
	Data    []byte // the bytes of WRITE

	Attributes Attributes
}

const (
	lengthBytes = 4      // a packet begins with its length
	mostLength  = 262144 // a longer packet ends the session
	headBytes   = 9      // the length, the type and the id of a packet
	handleBytes = 8
	extended    = 200 // the type of the requests that extensions define
)

// An input has the bytes that a client sent and the library has not read.
type input struct {
	bytes.Buffer
	begun bool     // the library has read a packet
	root  []string // the names of the directory that the client sees as "/"
}

// packet returns the next packet, which stays. It returns nil if the packet is incomplete. A length
// that ends the session counts as a packet.
func (in *input) packet() []byte {
	data := in.Bytes()
	if len(data) < lengthBytes {
		return nil
	}
	length := binary.BigEndian.Uint32(data)
	if length == 0 || length > mostLength {
		return data[:lengthBytes]
	}
	if uint32(len(data)-lengthBytes) < length {
		return nil
	}
	return data[:lengthBytes+length]
}

var extensions = map[string]Kind{
	"posix-rename@openssh.com": KindPosixRename,
	"hardlink@openssh.com":     KindHardlink,
	"fsync@openssh.com":        KindFsetstat,
	"lsetstat@openssh.com":     KindSetstat,
}

// isByPath reports whether requests of this kind name a path.
func (kind Kind) isByPath() bool {
	switch kind {
	case KindOpen, KindLstat, KindSetstat, KindOpendir, KindRemove, KindMkdir, KindRmdir,
		KindRealpath, KindStat:
		return true
	}
	return kind.isByTwoPaths()
}

func (kind Kind) isByTwoPaths() bool {
	return kind == KindRename || kind == KindPosixRename || kind == KindHardlink
}

// fields reads the fields of a packet, one after another.
type fields struct {
	rest []byte
	bad  bool // the packet is too short, or a field is not valid
}

func (packet *fields) take(count uint64) []byte {
	if uint64(len(packet.rest)) < count {
		packet.bad = true
		return make([]byte, 8)
	}
	taken := packet.rest[:count]
	packet.rest = packet.rest[count:]
	return taken
}

func (packet *fields) uint32() uint32 { return binary.BigEndian.Uint32(packet.take(4)) }

func (packet *fields) uint64() uint64 { return binary.BigEndian.Uint64(packet.take(8)) }

func (packet *fields) text() []byte { return packet.take(uint64(packet.uint32())) }

// path reads a path, in normal form. The server itself rejects a path that is not valid.
func (packet *fields) path() string {
	path := string(packet.text())
	if path != "" && checkPath(path) != nil {
		packet.bad = true
	}
	return normal(path)
}

func (packet *fields) handle() uint64 {
	handle := packet.text()
	if len(handle) != handleBytes {
		packet.bad = true
		return 0
	}
	return binary.BigEndian.Uint64(handle)
}

// attributes reads attributes. Extended ones are skipped.
func (packet *fields) attributes() Attributes {
	flags := packet.uint32()
	found := Attributes{Given: flags & (givenSize | givenOwner | givenPermissions | givenTimes)}
	if flags&givenSize != 0 {
		found.Size = packet.uint64()
	}
	if flags&givenOwner != 0 {
		found.UID, found.GID = packet.uint32(), packet.uint32()
	}
	if flags&givenPermissions != 0 {
		found.Permissions = packet.uint32()
	}
	if flags&givenTimes != 0 {
		found.Atime = timestamp(packet.uint32()).time()
		found.Mtime = timestamp(packet.uint32()).time()
	}
	if flags&givenPairs != 0 {
		for count := packet.uint32(); count > 0 && !packet.bad; count-- {
			packet.text()
			packet.text()
		}
	}
	return found
}

// requestOf reads a packet. It returns false if the server rejects the packet without reading the
// tree.
func (engine *Engine) requestOf(session uint64, packet []byte) (Request, bool) {
	if len(packet) < headBytes {
		return Request{}, false
	}
	request := Request{Session: session, Kind: Kind(packet[lengthBytes])}
	rest := fields{rest: packet[headBytes:]}
	isExtended := request.Kind == extended
	if isExtended {
		request.Kind = extensions[string(rest.text())]
	}
	if !request.Kind.isRequest() {
		return Request{}, false
	}
	if request.Kind.isByPath() {
		request.Path = rest.path()
	} else {
		request.Handle = rest.handle()
		request.Path = engine.opened[request.Handle].path
	}
	switch {
	case request.Kind.isByTwoPaths():
		request.NewPath = rest.path()
	case request.Kind == KindOpen:
		request.Flags = OpenFlag(rest.uint32())
	case request.Kind == KindRead || request.Kind == KindWrite:
		request.Offset, request.Length = rest.uint64(), uint64(rest.uint32())
	}
	switch request.Kind {
	case KindWrite:
		request.Data = rest.take(request.Length)
	case KindOpen, KindMkdir, KindSetstat:
		request.Attributes = rest.attributes()
	case KindFsetstat:
		if !isExtended { // fsync@openssh.com has none.
			request.Attributes = rest.attributes()
		}
	}
	return request, !rest.bad
}

// refusedPacket returns a REALPATH with the id of a packet.
func refusedPacket(packet []byte, path string) []byte {
	body := append([]byte{byte(KindRealpath)}, packet[lengthBytes+1:headBytes]...)
	return appendText(nil, appendText(body, []byte(path)))
}

// belowRoot returns a packet with its paths below this directory. The client can neither remove nor
// rename the directory itself.
func belowRoot(packet []byte, root []string) []byte {
	if len(packet) < headBytes {
		return packet
	}
	rest := fields{rest: packet[headBytes:]}
	kind := Kind(packet[lengthBytes])
	body := append([]byte(nil), packet[lengthBytes:headBytes]...)
	if kind == extended {
		name := rest.text()
		kind = extensions[string(name)]
		body = appendText(body, name)
	}
	if !kind.isByPath() || kind == KindRealpath {
		return packet
	}
	paths := [][]string{namesOf(string(rest.text()))}
	if kind.isByTwoPaths() {
		paths = append(paths, namesOf(string(rest.text())))
	}
	if rest.bad || kind.isOfEntries() && hasRoot(paths) {
		return packet
	}
	for _, path := range paths {
		names := append(append([]string(nil), root...), path...)
		body = appendText(body, []byte("/"+strings.Join(names, "/")))
	}
	return appendText(nil, append(body, rest.rest...))
}

// isOfEntries reports whether requests of this kind remove or rename what they name.
func (kind Kind) isOfEntries() bool {
	return kind == KindRemove || kind == KindRmdir || kind.isByTwoPaths()
}

func hasRoot(paths [][]string) bool {
	for _, path := range paths {
		if len(path) == 0 {
			return true
		}
	}
	return false
}

// appendText appends a string with its length.
func appendText(data, more []byte) []byte {
	return append(binary.BigEndian.AppendUint32(data, uint32(len(more))), more...)
}
