# make         proves and builds build/libearmath.a and the program build/earmath, then compiles and runs the example
# make test    the gate, .ci/run: all proofs, and the tests of the archive from C
# make every   all 2^32 patterns through each function of one argument, ONLY=ear_exp2 for one of
#              them, and all floats of three channels through each loudness map (some minutes)
# make others  all 2^32 patterns through newlib's and glibc's functions, judged as ours are (some minutes)
# make errors  draws docs/errors/*.svg, the worst errors over each function's range, of what `every` and `others` have kept
# make bench   speed beside newlib's and glibc's functions, and beside a loop in C; writes docs/bench.txt
# make filter  64 taps over a second of sound, examples/filter.c: its error beside the promise, its speed beside a plain loop
# make hear    speech by espeak-ng as currents: the electrodogram, docs/electrodogram.svg, and how far it is from the exact path's
# make report  the evidence as one page, build/report.html; LOG=file takes the log of a gate that has run on this commit
# make times   seconds and peak memory of each crate's check
# make chip    the archive for a Cortex-M4F; chip/rules.mk says what else there is for the chip

CC = cc
CFLAGS = -O2 -Wall -Wextra
LIBRARY = build/libearmath.a
TESTS = values refusals spread phases wrong modes dot dot_nearest softmax transform currents loudness loudness_wrong top knee fitted

# Tests stand in folders by subject. What is no test or sweep there is a helper that all of them share.
FOLDERS = tests/harness tests/functions tests/lists tests/loudness tests/chip
SWEEPS = every loudness_every sweep faulty
HELPERS = $(filter-out $(TESTS) $(SWEEPS),$(basename $(notdir $(wildcard $(FOLDERS:%=%/*.c)))))
HEADERS = include/earmath.h $(wildcard $(FOLDERS:%=%/*.h))
TEST_FLAGS = -std=c11 -D_POSIX_C_SOURCE=200809L $(CFLAGS) -pthread -Iinclude $(FOLDERS:%=-I%)
vpath %.c $(FOLDERS)
CRATES = crates.txt $(shell find crates -type f -not -path '*/out/*')

.PHONY: all test tests every others errors hear report bench filter times clean tools-for-make mpfr
.DELETE_ON_ERROR:

all: build/roots build/growth.svg build/filter build/electrodogram build/earmath
	@echo "The library is proved and built: $(LIBRARY). The example examples/roots.c, linked with it, says:"
	@echo
	@build/roots
	@echo
	@echo "So results are the nearest floats, and what has no result is refused with nothing written."
	@echo "A channel's loudness map is drawn in build/growth.svg; build/growth prints it, for any channel. build/filter filters a second of sound."
	@echo "Any value can be asked for by bit patterns: build/earmath exp2 40490fdb says $$(build/earmath exp2 40490fdb)."

test:
	@.ci/run

tests: $(TESTS:%=build/tests/%)

every: build/tests/every build/tests/loudness_every
	build/tests/every $(ONLY)
	$(if $(ONLY),,build/tests/loudness_every)

# They keep fewer promises, so that the verdict is a failure here: what counts is the table.
others: build/others
	-build/others $(ONLY)

errors:
	tools/errors

build/newlib/newlib.o: bench/newlib
	bench/newlib

build/others: every.c build/helpers.a $(LIBRARY) build/newlib/newlib.o $(HEADERS)
	$(CC) $(TEST_FLAGS) -fno-builtin '-DTABLE="others.h"' $(filter-out %.h,$^) -lmpfr -lgmp -lm -o $@

bench: $(LIBRARY)
	bench/run

filter: build/filter
	build/filter

# What it says, and the sound that it is drawn from, are the same in every run of one version of espeak-ng.
hear: build/electrodogram build/hear
	@tools/need --install espeak-ng sox
	espeak-ng -v en -s 150 -w build/spoken.wav "Anna, can you hear your name?"
	sox -R -D build/spoken.wav -r 16000 -c 1 -b 16 build/speech.wav norm -3
	build/electrodogram --svg build/speech.wav >docs/electrodogram.svg
	sox build/speech.wav -t raw - | build/hear

build/hear: bench/hear.c bench/straight.h build/helpers.a $(LIBRARY) $(HEADERS)
	$(CC) $(TEST_FLAGS) -ffp-contract=off -Ibench $(filter %.c %.a,$^) -lmpfr -lgmp -lm -o $@

report:
	@tools/report $(LOG)

times: tools-for-make
	@tools/times

clean:
	rm -rf build crates/*/out examples/chip/build

# `error` says it in one line, where a recipe that fails would add one of make's own.
need = $(eval missing := $(shell tools/need $(1) 2>&1))$(if $(missing),$(error $(missing)))

tools-for-make:
	@$(call need,x86-64 rt $(CC) ar ld objcopy objdump)

mpfr:
	@$(call need,$(CC) mpfr)

# What clears a list joins the archive's one object under a name of its own.
$(LIBRARY): $(CRATES) chip/clear.c | tools-for-make
	cd crates/earmath_c && rt lib --cpu=x86-64
	@mkdir -p build/archive
	cd build/archive && ar x ../../crates/earmath_c/out/libearmath_c.a earmath_c.o
	$(CC) -O2 -Wall -Wextra -ffreestanding -fno-strict-aliasing -fPIC -ffunction-sections -c chip/clear.c -o build/archive/clear.o
	ld -r build/archive/earmath_c.o build/archive/clear.o -o build/archive/earmath.o
	objcopy --localize-symbol=memset build/archive/earmath.o
	rm -f $@
	ar rcsD $@ build/archive/earmath.o

build/earmath: $(CRATES) | tools-for-make
	cd crates/ear && rt run </dev/null
	@mkdir -p build
	cp crates/ear/out/ear $@

# The examples are plain C99, as the header is.
build/roots build/growth build/filter build/electrodogram: build/%: examples/%.c include/earmath.h $(LIBRARY)
	$(CC) -std=c99 -pedantic $(CFLAGS) -Iinclude $< $(LIBRARY) -lm -o $@

build/growth.svg: build/growth
	build/growth --svg >$@
	build/growth --svg --top 1023 0.001 0.316227766 200 900 >build/growth-1023.svg
	build/growth --svg --knee 0.02 170 0.001 0.316227766 100 200 >build/growth-knee.svg

build/helpers/%.o: %.c $(HEADERS) | mpfr
	@mkdir -p $(@D)
	$(CC) $(TEST_FLAGS) -c $< -o $@

build/helpers.a: $(HELPERS:%=build/helpers/%.o)
	rm -f $@
	ar rcs $@ $^

build/tests/%: %.c build/helpers.a $(HEADERS) $(LIBRARY)
	@mkdir -p $(@D)
	$(CC) $(TEST_FLAGS) $< build/helpers.a $(LIBRARY) -lmpfr -lgmp -lm -o $@

include chip/rules.mk
