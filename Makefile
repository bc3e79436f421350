# `make help` says what there is.
SHELL = bash
.SHELLFLAGS = -euo pipefail -c
.DELETE_ON_ERROR:
.PHONY: run rig replay log_is_named traffic report sizes_are_named chart image_is_named test lib bench install clean help

PREFIX = /usr/local
DESTDIR =
STATE = 0
DRAWS = 1000
# files for a dump; an empty name is none, and the environment names none
IMAGE =
TABLE =

archive = target/staticlib/libcapi.a
programs = target/bin/replay target/bin/traffic
chart = cargo run --offline --locked --release --quiet --manifest-path tools/chart/Cargo.toml
# with the folders, whose dates tell of removed files; `rt` keeps what it makes in crates/NAME/out
sources := $(wildcard crates.txt) $(shell find crates -mindepth 2 -name out -prune -o -print)

run:
	@echo 'Proving the store and the program `examples`: a few minutes the first time, seconds afterwards.'
	@.ci/prove program examples
	@target/bin/examples
	@printf '\nThe chart of a rig that begins with the same four buffers\n\n'
	@$(MAKE) --no-print-directory rig

# the chart is Rust; what it asks the archive is proved, by `make lib` where that has not been done
rig: $(archive)
	@mkdir -p target/chart
	@$(chart) --example rig -- target/chart/rig.image target/chart/rig.table
	@$(chart) -- show target/chart/rig.image target/chart/rig.table

# proving is told on standard error: standard output has the answers alone, the log or the report
replay traffic: export IMAGE := $(IMAGE)
replay traffic: export TABLE := $(TABLE)
replay: log_is_named target/bin/replay
	@target/bin/replay IMAGE="$$IMAGE" TABLE="$$TABLE" <"$$LOG"

log_is_named:
	@[ -n "$${LOG:-}" ] || { echo 'usage: make replay LOG=file [IMAGE=file [TABLE=file]]' >&2; exit 2; }

traffic: export STATE := $(STATE)
traffic: export DRAWS := $(DRAWS)
traffic: target/bin/traffic
	@target/bin/traffic "$$STATE" "$$DRAWS" IMAGE="$$IMAGE" TABLE="$$TABLE"

report: sizes_are_named $(archive)
	@cargo run --offline --locked --release --quiet --manifest-path rust/Cargo.toml --example overhead -- "$$SIZES"

sizes_are_named:
	@[ -n "$${SIZES:-}" ] || { echo 'usage: make report SIZES=file' >&2; exit 2; }

chart: image_is_named $(archive)
	@$(chart) -- show "$$IMAGE" $${TABLE:+"$$TABLE"}

image_is_named:
	@[ -n "$${IMAGE:-}" ] || { echo 'usage: make chart IMAGE=file [TABLE=file]' >&2; exit 2; }

$(programs): target/bin/%: $(sources)
	@echo 'Proving the store and the program `$*`: a few minutes the first time, seconds afterwards.' >&2
	@.ci/prove program $* >&2

test:
	@.ci/run

lib: $(archive)

$(archive): $(sources)
	@echo 'Proving the exports: a few minutes the first time, seconds afterwards.' >&2
	@.ci/prove library capi >&2

bench: $(archive) target/bin/replay
	@cd bench && cargo run --offline --release --quiet

install: $(archive)
	@prefix=$$(realpath -ms -- "$(PREFIX)"); to="$(DESTDIR)$$prefix"; \
	version=$$(sed -nE 's/^#define CUE_VERSION "(.*)"$$/\1/p' include/cueledger.h); \
	install -d "$$to/include" "$$to/lib/pkgconfig"; \
	install -m 644 include/cueledger.h "$$to/include/"; \
	install -m 644 $(archive) "$$to/lib/"; \
	while IFS= read -r line; do \
		line=$${line//@PREFIX@/"$$prefix"}; \
		printf '%s\n' "$${line//@VERSION@/"$$version"}"; \
	done <include/cueledger.pc.in >"$$to/lib/pkgconfig/cueledger.pc"; \
	echo "cueledger $$version is in $$to"

clean:
	rm -rf target crates/*/out rust/target tests/target bench/target tools/chart/target

help:
	@echo 'make run      prove the store, then run its main job, the program `examples`'
	@echo 'make replay   make the calls of the log LOG=file again, and print their answers; to IMAGE=file and TABLE=file, dump what they leave'
	@echo 'make traffic  write the log of a repeatable load, from STATE=$(STATE), of DRAWS=$(DRAWS); dump likewise'
	@echo 'make report   the overheads of headers and of padded blocks, over the sizes in SIZES=file'
	@echo 'make chart    superblock, tally, blocks, cues and a map of the dumps IMAGE=file [TABLE=file]'
	@echo 'make test     all tests: .ci/run, which ends in `N passed, 0 failed`'
	@echo 'make lib      prove the exports and write $(archive), for C and Rust'
	@echo 'make bench    measure the library and `replay` against models in Rust'
	@echo 'make install  header, archive and pkg-config file, to PREFIX ($(PREFIX)) below DESTDIR'
	@echo 'make clean    remove everything that was built and proved'
