# Names for the scripts, which have more options.
PREFIX = /usr/local
SOCKET = /tmp/lucernetick

.PHONY: help demo build check mutants library install dist bench

help: # lists these targets
	@sed -n 's/^\([a-z]*\): # /  make \1\t/p' Makefile | expand -t 16

demo: # serve at the Unix socket SOCKET before anything is proved
	@scripts/demo "$(SOCKET)"

build: # prove and build the program, crates/sftpd/out/sftpd
	@./sftpd --version

check: # prove everything from the sources and run all tests
	@./test

mutants: # check that the prover rejects each wrong body
	@scripts/mutants

library: # prove and build the library, out/liblucernetick.a and .so
	@scripts/library

install: # install the program and the library below DESTDIR, in PREFIX
	@scripts/library --prefix "$(PREFIX)"

dist: # make an archive for machines without Rattle's kit
	@scripts/dist

bench: # measure the program beside OpenSSH's sftp-server
	@bench/run
