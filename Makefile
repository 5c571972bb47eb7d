# make job            proves and builds the program `job`, and runs it on the sample folder
# make job DIR=..     on another folder that has a job.typ and a job.val
# make find           proves and builds the program `find`, and runs it on a sample day
# make find DIR=..    on another folder that has a day.typ, a day.frames, a day.path and a day.val
# make programs       proves and builds `job`, `clean` and `find`, as target/bin/job and so on
# make library        proves and builds the static library, target/staticlib/libniegluk.a
job: DIR ?= examples/sample
find: DIR ?= examples/day

job find: %: target/bin/%
	@cd '$(DIR)' && '$(CURDIR)/target/bin/$@'

programs: target/bin/job target/bin/clean target/bin/find

# What the toolchain says goes to target/log. It runs a program that it builds, in the crate's own folder, where the
# programs find no files of theirs; what that prints goes to the log, too.
target/bin/%: proved
	@mkdir -p target/bin
	@echo 'make: proves each crate that $* needs, in some minutes the first time' >&2
	@cd crates/$* && rt run >'$(CURDIR)/target/log' 2>&1 && cp out/$* '$(CURDIR)/target/bin/$*' \
	    || { echo 'make: failed; target/log has all that was said' >&2; exit 1; }

library: proved
	@mkdir -p target/staticlib
	@echo 'make: proves each crate that the library needs, in some minutes the first time' >&2
	@cd crates/niegluk_c && rt lib >'$(CURDIR)/target/log' 2>&1 && cp out/libniegluk_c.a '$(CURDIR)/target/staticlib/libniegluk.a' \
	    || { echo 'make: failed; target/log has all that was said' >&2; exit 1; }

proved:

.PHONY: job find programs library proved
