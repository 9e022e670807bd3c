# The archive of the version, which stands in release/ with its checksum and what it was made from.
.PHONY: release release-same release-tests

# the archive is the same wherever it is made
dist: export LC_ALL := C
dist: export TZ := UTC

# once a version: from a clean clone of HEAD, in which everything is proved and built
release: kit
	python3 bindings/release.py make

# from the commit that release/MADE-FROM tells, with the kit that it tells
release-same: kit
	python3 bindings/release.py same

# with the built program where there is one
release-tests:
	python3 bindings/release.py test $(wildcard $(PROGRAM))
