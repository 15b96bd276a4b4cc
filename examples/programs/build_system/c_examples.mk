# The programs of examples/c, with a library that bindings/install.sh has installed. Run it at the top of the repository:
#
#     cml_make -j4 -f examples/programs/build_system/c_examples.mk PREFIX="$HOME/.local"
#
# If the library for scripts is installed too, `replay` is a goal.

PREFIX = /usr/local
SOURCES = examples/c
OUT = out/c_examples

CC = cc
CFLAGS = -O2 -pthread -Wall -Wextra -Werror -I$(PREFIX)/include
COMPILE = mkdir -p $(OUT) && $(CC) $(CFLAGS) -c $< -o $@
LINK = $(CC) -pthread $^ -o $@

HEADER = $(PREFIX)/include/seryugo.h
LIBRARY = $(PREFIX)/lib/libseryugo.a
SCRIPT_HEADER = $(PREFIX)/include/seryugo_script.h
SCRIPT_LIBRARY = $(PREFIX)/lib/libseryugo_script.a

PROGRAMS = $(OUT)/requests $(OUT)/switchboard $(OUT)/threads

.PHONY: all replay clean

all: $(PROGRAMS)

replay: $(OUT)/replay

clean:
	rm -rf $(OUT)

$(OUT)/requests: $(OUT)/requests.o $(LIBRARY)
	$(LINK)

$(OUT)/switchboard: $(OUT)/switchboard.o $(LIBRARY)
	$(LINK)

$(OUT)/threads: $(OUT)/threads.o $(LIBRARY)
	$(LINK)

$(OUT)/replay: $(OUT)/replay.o $(SCRIPT_LIBRARY)
	$(LINK)

$(OUT)/requests.o: $(SOURCES)/requests.c $(HEADER)
	$(COMPILE)

$(OUT)/switchboard.o: $(SOURCES)/switchboard.c $(HEADER)
	$(COMPILE)

$(OUT)/threads.o: $(SOURCES)/threads.c $(HEADER)
	$(COMPILE)

$(OUT)/replay.o: $(SOURCES)/replay.c $(SCRIPT_HEADER)
	$(COMPILE)
