# What people type first. Each target calls a script, which `--help` describes; `make help` lists the targets.

PREFIX ?= $(HOME)/.local

# No rule is looked for that makes a source.
MAKEFLAGS += --no-builtin-rules
# What follows a build that failed; ./nvmesim and ./nvmetcp print no second message.
IF_FAILED ?= exit 70

PROGRAMS := out/bin/nvmesim out/bin/nvmelive
# The folders of the sources are among them, since a source that was removed changes only its folder.
SOURCES := $(shell find crates.txt crates \( -name out -o -name must-fail -o -name wrong-bodies -o -name data \) \
    -prune -o -print)

.PHONY: all nvmetcp prove check test install uninstall bench help

all: $(PROGRAMS) nvmetcp ## build the programs without their proofs, in about a minute

# Another make may build the same: then this one waits, and finds that only their times are old.
$(PROGRAMS) &: $(SOURCES)
	@mkdir -p out && flock out/bin.lock scripts/build programs || $(IF_FAILED)

nvmetcp:
	@clients/nvme-tcp/build || $(IF_FAILED)

prove: ## prove and build nvmesim and nvmelive, in 15 to 30 minutes
	@scripts/build prove || $(IF_FAILED)

check: ## test documents and programs, in a minute
	scripts/documents
	scripts/layout
	scripts/test program closed-streams live

test: ## run the gate: every proof and test, 90 minutes from nothing
	.ci/run

install: ## install everything under PREFIX, by default ~/.local
	scripts/install "$(PREFIX)"

uninstall: ## remove what was installed under PREFIX
	scripts/install --remove "$(PREFIX)"

bench: ## measure scripts by the proved program
	bench/run

help: ## list the targets
	@awk -F ':.*## ' '/^[a-z]+:.*## / { printf "make %-10s %s\n", $$1, $$2 }' Makefile
