package sshtest

import (
	"crypto/ed25519"
	"crypto/rand"
	"encoding/pem"
	"fmt"
	"net"
	"os"
	"path/filepath"
	"strings"

	"golang.org/x/crypto/ssh"
)

func newKey() ed25519.PrivateKey {
	_, key, err := ed25519.GenerateKey(rand.Reader)
	if err != nil {
		panic(fmt.Sprintf("sshtest: no key can be drawn: %v", err))
	}
	return key
}

func signerOf(key ed25519.PrivateKey) ssh.Signer {
	signer, err := ssh.NewSignerFromKey(key)
	if err != nil {
		panic(fmt.Sprintf("sshtest: %v", err))
	}
	return signer
}

// fileOf returns a private key in OpenSSH's file format, without a passphrase (PROTOCOL.key of its
// sources).
func fileOf(key ed25519.PrivateKey) []byte {
	public := signerOf(key).PublicKey()
	secret := ssh.Marshal(struct {
		Check, Again    uint32
		Type            string
		Public, Private []byte
		Comment         string
	}{0, 0, public.Type(), key.Public().(ed25519.PublicKey), key, ""})
	for padding := byte(1); len(secret)%8 != 0; padding++ {
		secret = append(secret, padding)
	}
	file := ssh.Marshal(struct {
		Cipher, KDF, Options string
		Keys                 uint32
		Public, Secret       []byte
	}{"none", "none", "", 1, public.Marshal(), secret})
	file = append([]byte("openssh-key-v1\x00"), file...)
	return pem.EncodeToMemory(&pem.Block{Type: "OPENSSH PRIVATE KEY", Bytes: file})
}

// WriteSSHConfig writes ssh_config, client_key and known_hosts into a folder, which it makes if
// necessary. Then `sftp -F FOLDER/ssh_config lucernetick` connects. It returns the path of
// ssh_config.
func (server *Server) WriteSSHConfig(folder string) (string, error) {
	folder, err := filepath.Abs(folder)
	if err != nil {
		return "", err
	}
	if err := os.MkdirAll(folder, 0o700); err != nil {
		return "", err
	}
	host, port, err := net.SplitHostPort(server.Addr)
	if err != nil {
		return "", err
	}
	config := filepath.Join(folder, "ssh_config")
	key, hosts := filepath.Join(folder, "client_key"), filepath.Join(folder, "known_hosts")
	lines := []string{
		"Host lucernetick",
		"  HostName " + host,
		"  Port " + port,
		"  User " + server.User,
		fmt.Sprintf("  IdentityFile %q", key),
		"  IdentitiesOnly yes",
		fmt.Sprintf("  UserKnownHostsFile %q", hosts),
		"  StrictHostKeyChecking yes",
		"",
	}
	for path, data := range map[string][]byte{
		key:    server.ClientKey(),
		hosts:  []byte(server.KnownHosts()),
		config: []byte(strings.Join(lines, "\n")),
	} {
		if err := os.WriteFile(path, data, 0o600); err != nil {
			return "", err
		}
	}
	return config, nil
}
