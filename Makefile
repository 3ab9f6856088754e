# The commands of this repository.
.PHONY: run test host fuzz staticlib

# The library of the run for C, and how C is compiled: with sanitizers where the compiler can link them.
LIBRARY = target/staticlib/librun.a
WARNINGS = -std=c11 -O2 -Wall -Wextra -Werror
SANITIZERS = $(shell echo 'int main(void) { return 0; }' | $(CC) -fsanitize=address,undefined -x c - -o /dev/null 2> /dev/null \
	&& echo -fsanitize=address,undefined -fno-sanitize-recover=all)

# Proves and builds the program, runs the worked sheet, and prints the bytes of the answer.
run:
	cd crates/zafindoro && rt run < stdin | od -An -tx1 -v

# The merge gate: proves every crate from nothing, tries the must-fail edits, runs the programs and the tests.
test:
	.ci/run

# Proves the run and writes its static library, target/staticlib/librun.a.
staticlib:
	cd crates/run_c && rt lib
	mkdir -p target/staticlib
	cp crates/run_c/out/librun_c.a $(LIBRARY)

# Calls the library from a host program in C, and measures its stack.
host: staticlib
	mkdir -p target/host
	$(CC) $(WARNINGS) $(SANITIZERS) -Iinclude -o target/host/host tests/host/host.c $(LIBRARY)
	target/host/host
	$(CC) $(WARNINGS) -D_GNU_SOURCE -Iinclude -o target/host/stack tests/host/stack.c $(LIBRARY)
	target/host/stack

# Holds the library against the reference on COUNT random sheets; a SEED gives the same sheets each time.
SEED = 1
COUNT = 100000
fuzz: staticlib
	mkdir -p target/fuzz
	$(CC) $(WARNINGS) $(SANITIZERS) -Iinclude -o target/fuzz/driver tests/fuzz/driver.c $(LIBRARY)
	python3 tests/fuzz/fuzz.py $(SEED) $(COUNT)
