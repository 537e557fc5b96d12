# The chip: the same proved module compiled for a Cortex-M4F, and programs on an emulated one.
#
# make chip         build/chip/libearmath.a; FOR=riscv32imafc or FOR=cortex-m33 for another target, build/$(FOR)/libearmath.a;
#                   OPTIMIZE=-Os for a library of 17 KB instead of 24
# make chip-tests   the programs that the gate runs on the emulated chip
# make chip-every   all 2^32 patterns of ONLY=ear_exp2, or of every function that takes one, on the emulated chip: the
#                   same bits as on the host (an hour for each)
# make chip-bench   instructions, bytes and stack of each function beside newlib's; writes docs/chip.txt

# Without LLVM's second scheduler (misched) the roots take 4 to 8 instructions fewer, and no function is slower by more than 2. Without its hoisting of
# constants, which loads a mask of 23 bits again and again where one instruction puts bits in, softmax takes 8 fewer, and no function is slower by more than 1.
# A guess that two functions share is no call with a higher limit for inlining: the root takes 4 fewer, the path from microphone to electrode 300, for 120 bytes.
# Tables that a function uses together lie together, up to 239 bytes: one address for all of them. (With 320 bytes the tables of the transform were merged
# too, which took 4 % longer by it.)
FOR = chip
OPTIMIZE = -O3 -mllvm -inline-threshold=400
TARGET_chip = --target=thumbv7em-none-eabihf -mcpu=cortex-m4 -mfloat-abi=hard -Xclang -target-feature -Xclang -use-misched \
	-mllvm -disable-constant-hoisting -mllvm -global-merge-on-const -mllvm -global-merge-max-offset=239
TARGET_cortex-m33 = --target=thumbv8m.main-none-eabihf -mcpu=cortex-m33 -mfloat-abi=hard
TARGET_riscv32imafc = --target=riscv32-none-elf -march=rv32imafc -mabi=ilp32f

# the compiler is the one that `rt` itself uses
KIT_TOOLS = $(dir $(shell rt doc))toolchain/bin

.PHONY: chip chip-compiler chip-tests chip-every chip-bench tools-for-chip

chip: build/$(FOR)/libearmath.a

chip-compiler:
	@echo $(KIT_TOOLS)/clang

build/chip/module.ll: chip/module tools/kit_of_links $(LIBRARY)
	chip/module $@

build/%/libearmath.a: build/chip/module.ll chip/clear.c
	@mkdir -p $(@D)
	$(KIT_TOOLS)/clang $(or $(TARGET_$*),$(error no target $* in chip/rules.mk)) $(OPTIMIZE) -ffunction-sections -fdata-sections \
		-fstack-usage -Wno-override-module -c -x ir $< -o $(@D)/earmath.o
	$(KIT_TOOLS)/clang $(TARGET_$*) -O2 -ffreestanding -ffunction-sections -fstack-usage -c chip/clear.c -o $(@D)/clear.o
	rm -f $@
	$(KIT_TOOLS)/llvm-ar rcsD $@ $(@D)/earmath.o $(@D)/clear.o

# Programs for the emulated chip are linked as the example in examples/chip is.
CHIP_CC = arm-none-eabi-gcc -mcpu=cortex-m4 -mthumb -mfloat-abi=hard -mfpu=fpv4-sp-d16
CHIP_PROGRAM = $(CHIP_CC) -std=gnu11 $(CFLAGS) -ffunction-sections -fdata-sections -Wl,--gc-sections,-z,noexecstack \
	--specs=rdimon.specs -nostartfiles -T examples/chip/chip.ld -Iinclude $(FOLDERS:%=-I%) examples/chip/start.c

tools-for-chip:
	@tools/need --install arm-none-eabi-gcc qemu-system-arm python3

chip-tests: build/chip/values.elf build/chip/sweep.elf build/chip/faulty.elf build/chip/sweep

chip-every: build/chip/sweep.elf build/chip/sweep
	tests/chip/same build/chip/sweep build/chip/sweep.elf $(or $(ONLY),each)

chip-bench: build/chip/libearmath.a
	bench/chip/run

build/chip/values.elf: values.c judge.c report.c
build/chip/sweep.elf: sweep.c answers.c
build/chip/faulty.elf: sweep.c answers.c faulty.c
build/chip/faulty.elf: CHIP_PROGRAM += $(foreach f,sqrt rsqrt exp2 log2 sinpi cospi,-Wl,--wrap=ear_$f)
build/chip/%.elf: build/chip/libearmath.a examples/chip/start.c examples/chip/chip.ld $(HEADERS) | tools-for-chip
	$(CHIP_PROGRAM) $(filter-out examples/%,$(filter %.c,$^)) $< -lm -o $@

build/chip/sweep: sweep.c build/helpers.a $(HEADERS) $(LIBRARY)
	@mkdir -p $(@D)
	$(CC) $(TEST_FLAGS) $< build/helpers.a $(LIBRARY) -o $@
