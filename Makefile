# What C and Rust programs take of this repository: an archive for C, and a crate for Rust. docs/C.md and CONTRIBUTING.md say more.
#     make dist                   from a tree that .ci/run has passed, into dist/
#     make dist-check             makes it twice, in two folders, and compares each byte
#     make install PREFIX=/usr    unpacks the archive of this machine
PREFIX = /usr/local
DESTDIR =
TARGET = x86_64-unknown-linux-gnu

dist:
	ship/dist

dist-check:
	ship/dist --check

install:
	ship/install dist $(TARGET) "$(DESTDIR)$(PREFIX)"

.PHONY: dist dist-check install
