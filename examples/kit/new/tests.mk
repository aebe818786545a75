
# make test compares the transcript with the file expected, and does make orders; make expected stores the transcript.
include $(KIT)/test.mk
