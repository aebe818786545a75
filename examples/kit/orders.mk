# The search of a program's orders, for a Makefile that has included kit.mk and says IMAGE and PROGRAMS:
#
#     make orders    fails if an order of the threads does: a process ends by a fault or with an exit word other than 0, or a
#                    thread waits for an answer or a thread for good
#
# It names the event files of these orders, and the commands that look into them. SEARCH has more words for the search
# (docs/orders.md), such as `--preemptions 1` for threads of one process that share memory, or `--fails differ` for one ending in all
# orders. STEPS is the step limit of a run, if it isn't that of xousim.

SEARCH ?=
STEPS ?=
# The words of xous-why and of the debugger: the programs by pid.
ELFS = $(shell pid=2; for name in $(PROGRAMS); do echo "--elf $$pid=out/$$name.elf"; pid=$$((pid + 1)); done)
TEST = ELFS='$(ELFS)' STEPS='$(STEPS)' $(KIT)/test

orders: $(IMAGE)
	@$(TEST) orders $(IMAGE) out/orders $(SEARCH)

.PHONY: orders
