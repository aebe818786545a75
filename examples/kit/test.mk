# Tests of a program, for a Makefile that has included kit.mk and orders.mk:
#
#     make test        compares the transcript of EVENTS with EXPECTED, and does `make orders`
#     make expected    stores the transcript

EVENTS ?= events
EXPECTED ?= expected
XOUSIM ?= $(KIT)/../../xousim

test: test-transcript orders

test-transcript: $(IMAGE)
	@$(TEST) transcript $(IMAGE) $(EVENTS) $(EXPECTED)

$(EXPECTED): $(IMAGE)
	$(XOUSIM) trace $(IMAGE) $(EVENTS) $(STEPS) >$@.new && mv $@.new $@ || { rm -f $@.new; exit 1; }

.PHONY: test test-transcript $(EXPECTED)
