package sshtest_test

import (
	"fmt"

	"golang.org/x/crypto/ssh"
	"lucernetick"
	"lucernetick/sshtest"
)

// The code under test makes its own connection.
func ExampleNewServer() {
	engine, err := lucernetick.New()
	if err != nil {
		fmt.Println(err)
		return
	}
	defer engine.Close()
	server := sshtest.NewServer(engine)
	defer server.Close()
	client, err := ssh.Dial("tcp", server.Addr, server.ClientConfig())
	if err != nil {
		fmt.Println(err)
		return
	}
	defer client.Close()
	fmt.Println(client.User())
	// Output: user
}
