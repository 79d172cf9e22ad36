// Clients of pkg/sftp over golang.org/x/crypto/ssh:
//
//	client ADDR USER KEY KNOWN_HOSTS put-and-get SENT PATH GOT
//	client ADDR USER KEY KNOWN_HOSTS at-once COUNT SENT
//
// The first puts a file and gets it. The second has so many connections at once, each of which puts
// the file, waits until all have, gets what the next one put, and removes it.
package main

import (
	"bytes"
	"fmt"
	"io"
	"os"
	"strconv"
	"sync"

	"github.com/pkg/sftp"
	"golang.org/x/crypto/ssh"
	"golang.org/x/crypto/ssh/knownhosts"
)

func main() {
	if err := run(os.Args[1:]); err != nil {
		fmt.Fprintln(os.Stderr, err)
		os.Exit(1)
	}
}

func run(words []string) error {
	if len(words) < 7 {
		return fmt.Errorf("no words of a client: %q", words)
	}
	config, err := login(words[1], words[2], words[3])
	if err != nil {
		return err
	}
	switch {
	case words[4] == "put-and-get" && len(words) == 8:
		return withClient(words[0], config, func(client *sftp.Client) error {
			if err := put(client, words[5], words[6]); err != nil {
				return err
			}
			return get(client, words[6], words[7])
		})
	case words[4] == "at-once":
		return atOnce(words[0], config, words[5], words[6])
	}
	return fmt.Errorf("no words of a client: %q", words)
}

// login is who logs in, by a key, to a host that is known.
func login(user, keyFile, hosts string) (*ssh.ClientConfig, error) {
	contents, err := os.ReadFile(keyFile)
	if err != nil {
		return nil, err
	}
	key, err := ssh.ParsePrivateKey(contents)
	if err != nil {
		return nil, err
	}
	known, err := knownhosts.New(hosts)
	if err != nil {
		return nil, err
	}
	return &ssh.ClientConfig{
		User:            user,
		Auth:            []ssh.AuthMethod{ssh.PublicKeys(key)},
		HostKeyCallback: known,
		// Of this kind are the keys of the servers here.
		HostKeyAlgorithms: []string{ssh.KeyAlgoED25519},
	}, nil
}

// withClient does work on a connection of its own.
func withClient(addr string, config *ssh.ClientConfig, work func(*sftp.Client) error) error {
	conn, err := ssh.Dial("tcp", addr, config)
	if err != nil {
		return err
	}
	defer conn.Close()
	client, err := sftp.NewClient(conn)
	if err != nil {
		return err
	}
	defer client.Close()
	return work(client)
}

func put(client *sftp.Client, sent, path string) error {
	here, err := os.Open(sent)
	if err != nil {
		return err
	}
	defer here.Close()
	there, err := client.Create(path)
	if err != nil {
		return err
	}
	if _, err := io.Copy(there, here); err != nil {
		return err
	}
	return there.Close()
}

func get(client *sftp.Client, path, got string) error {
	there, err := client.Open(path)
	if err != nil {
		return err
	}
	defer there.Close()
	here, err := os.Create(got)
	if err != nil {
		return err
	}
	if _, err := io.Copy(here, there); err != nil {
		return err
	}
	return here.Close()
}

func atOnce(addr string, config *ssh.ClientConfig, count, sent string) error {
	clients, err := strconv.Atoi(count)
	if err != nil {
		return err
	}
	contents, err := os.ReadFile(sent)
	if err != nil {
		return err
	}
	var allHavePut sync.WaitGroup
	allHavePut.Add(clients)
	told := make(chan error, clients)
	for number := 0; number < clients; number++ {
		own, other := fmt.Sprintf("/%d", number), fmt.Sprintf("/%d", (number+1)%clients)
		go func() {
			var once sync.Once
			defer once.Do(allHavePut.Done)
			told <- withClient(addr, config, func(client *sftp.Client) error {
				if err := put(client, sent, own); err != nil {
					return err
				}
				once.Do(allHavePut.Done)
				allHavePut.Wait()
				return getSame(client, other, contents)
			})
		}()
	}
	for number := 0; number < clients; number++ {
		if err := <-told; err != nil {
			return err
		}
	}
	return nil
}

// getSame gets a file of these contents, and removes it.
func getSame(client *sftp.Client, path string, contents []byte) error {
	file, err := client.Open(path)
	if err != nil {
		return err
	}
	defer file.Close()
	got, err := io.ReadAll(file)
	if err != nil {
		return err
	}
	if !bytes.Equal(got, contents) {
		return fmt.Errorf("%s came as other bytes, %d of them", path, len(got))
	}
	return client.Remove(path)
}
