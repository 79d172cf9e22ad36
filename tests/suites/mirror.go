// Package mirror is the code under test: it copies a folder to an SFTP server.
package mirror

import (
	"io/fs"
	"path"

	"github.com/pkg/sftp"
)

// Mirror makes the folder to on the server the same as from. Files are written by a temporary name.
// It removes what from does not have.
func Mirror(client *sftp.Client, from fs.FS, to, id string) error {
	seen := map[string]bool{}
	err := fs.WalkDir(from, ".", func(name string, entry fs.DirEntry, err error) error {
		if err != nil {
			return err
		}
		target := path.Join(to, name)
		seen[target] = true
		if entry.IsDir() {
			return client.MkdirAll(target)
		}
		return put(client, from, name, target, id)
	})
	if err != nil {
		return err
	}
	return prune(client, to, seen)
}

func put(client *sftp.Client, from fs.FS, name, target, id string) error {
	contents, err := fs.ReadFile(from, name)
	if err != nil {
		return err
	}
	part := target + "." + id + ".part"
	file, err := client.Create(part)
	if err != nil {
		return err
	}
	_, err = file.Write(contents)
	if closed := file.Close(); err == nil {
		err = closed
	}
	if err == nil {
		err = client.PosixRename(part, target)
	}
	if err != nil {
		client.Remove(part)
	}
	return err
}

// prune removes what was not seen, the deepest first.
func prune(client *sftp.Client, to string, seen map[string]bool) error {
	var old []string
	for walker := client.Walk(to); walker.Step(); {
		if err := walker.Err(); err != nil {
			return err
		}
		if !seen[walker.Path()] {
			old = append(old, walker.Path())
		}
	}
	for at := len(old) - 1; at >= 0; at-- {
		if err := client.Remove(old[at]); err != nil {
			return err
		}
	}
	return nil
}
