# How programs are made over the kit: out/NAME.elf of NAME.c, and out/kit/log.elf, the server of the log.
#
# A Makefile that includes this one has its sources beside it, or in folders beside it. Lines that it may have:
#
#     out/NAME.elf: out/OTHER.o                    NAME has a second source, OTHER.c
#     out/NAME.elf: CFLAGS += -Og                  for a debugger: each variable and line is there
#     out/NAME.elf: CFLAGS += -DCONSTRUCTORS       functions that run before main
#     CC = clang                                   in place of gcc (Debian's clang and lld)
#     LIBC = picolibc                              a C library: printf to the log, malloc on the heap (kit/libc.c)

KIT := $(patsubst %/,%,$(dir $(lastword $(MAKEFILE_LIST))))
ifeq ($(origin CC),default)
CC = riscv64-unknown-elf-gcc
endif
GCC = riscv64-unknown-elf-gcc
AR = riscv64-unknown-elf-ar
XOUS_IMAGE = $(KIT)/../../tools/xous-image

# Ends with a sentence where a command isn't there: the command, and what brings it.
xous_needs = $(if $(shell command -v $(1) 2>/dev/null),,$(error $(1) is missing: apt-get install $(2)))
GCC_PACKAGE = gcc-riscv64-unknown-elf
xous_needs_gcc = $(call xous_needs,$(GCC),$(GCC_PACKAGE))

# Of the compilers, clang is told the target and takes lld; gcc makes no call of memset of the loop in memset.
is_clang = $(findstring clang,$(firstword $(CC)))
COMPILER = $(call xous_needs,$(firstword $(CC)),$(if $(is_clang),clang lld,$(GCC_PACKAGE), or set CC))$(CC) $(if $(is_clang),--target=riscv32-unknown-elf)
ARCH = -march=rv32ima -mabi=ilp32
CFLAGS = $(ARCH) -Os -g -std=c11 -Wall -Wextra -Werror -Wstrict-aliasing=1 $(LIBC_CFLAGS) \
         -fno-pic -msmall-data-limit=0 -mno-relax -fno-asynchronous-unwind-tables \
         $(if $(is_clang),,-fno-tree-loop-distribute-patterns)
LDFLAGS = -nostdlib -static -T $(KIT)/link.ld -Wl,--no-relax -Wl,--build-id=none $(if $(is_clang),$(call xous_needs,ld.lld,lld)-fuse-ld=lld)
COMPILE = $(COMPILER) $(CFLAGS) -MMD -MP -I$(KIT) -c -o $@ $<

# libgcc has what the machine has no instruction for, such as the division of 64 bits. It comes with gcc.
LIBGCC = $(xous_needs_gcc)$(shell $(GCC) $(ARCH) -print-libgcc-file-name)

ifeq ($(LIBC),picolibc)
# Debian's package has no library for rv32ima. That for rv32im has the same calls, and no atomics.
PICOLIBC = /usr/lib/picolibc/riscv64-unknown-elf
ifeq ($(wildcard $(PICOLIBC)/include/picolibc.h),)
$(error LIBC = picolibc: $(PICOLIBC) is missing: apt-get install picolibc-riscv64-unknown-elf)
endif
LIBC_CFLAGS = -isystem $(PICOLIBC)/include -ftls-model=local-exec -DXOUS_PICOLIBC
LIBC_LIBRARIES = $(PICOLIBC)/lib/rv32im/ilp32/libc.a
KIT_OBJECTS = out/kit/libc.o
# The log has no library.
out/kit/log.elf: out/kit/memory.o
out/kit/log.elf: private LIBC_CFLAGS = -ffreestanding
out/kit/log.elf: private LIBC_LIBRARIES =
out/kit/log.o out/kit/memory.o: private LIBC_CFLAGS = -ffreestanding
else ifeq ($(LIBC),)
LIBC_CFLAGS = -ffreestanding
KIT_OBJECTS = out/kit/memory.o
else
$(error LIBC = $(LIBC): the kit knows picolibc alone; leave the line out for none)
endif

out/%.elf: out/%.o $(KIT)/start.S out/kit/libkit.a $(KIT)/link.ld
	$(COMPILER) $(CFLAGS) $(LDFLAGS) -o $@ $(KIT)/start.S $(filter %.o,$^) \
	    -Wl,--start-group out/kit/libkit.a $(LIBC_LIBRARIES) $(LIBGCC) -Wl,--end-group

out/%.o: %.c $(MAKEFILE_LIST)
	@mkdir -p $(@D)
	$(COMPILE)

out/kit/%.o: $(KIT)/%.c $(MAKEFILE_LIST)
	@mkdir -p $(@D)
	$(COMPILE)

out/kit/libkit.a: $(KIT_OBJECTS)
	rm -f $@
	$(xous_needs_gcc)$(AR) rcs $@ $^

-include $(wildcard out/*.d out/*/*.d out/*/*/*.d)

.SECONDARY:
.DELETE_ON_ERROR:
