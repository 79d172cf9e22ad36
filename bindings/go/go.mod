module lucernetick

go 1.19

require github.com/pkg/sftp v1.13.5 // only for the tests

require (
	github.com/kr/fs v0.1.0 // indirect
	golang.org/x/crypto v0.4.0 // indirect
	golang.org/x/sys v0.3.0 // indirect
)
