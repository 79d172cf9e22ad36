//go:build !(cgo && linux && amd64)

package lucernetick

// The type is wrong, so that the compiler prints the sentence.
const _ int = "lucernetick needs cgo, linux/amd64"
