# make hello               plays one view, from its leader's proposal to a certificate
# make run [SCRIPT=file]   plays a script; without one, the first
# make audit [SCRIPT=file] names who voted both ways in scripts of nodes; without any, in a fork
# make demo [SEED=n]       plays a network of validators, four of them faulty, and draws it; without a seed, of 1
# make prove               proves and builds these programs, which are played unproved until then
# make bench               proves the benchmark, plays its rows and takes their time
# make check               plays scripts, networks and tests unproved, in a few minutes
# make quick               proves what has changed, and plays all scripts
# make rust                tests the interfaces for Rust and C, for which it takes cargo and cc
# make simulate [SEED=n]   plays networks of validators in virtual time; with PRESET=name, of that sort
# make test [ANEW=1]       proves everything and runs every test; after an interrupt it goes on, or with ANEW=1 begins anew
# make clean               removes all that rt has kept and built
# make help                prints this list, as make does by itself

# These come to the shell by the environment, so that a space or a shell character in them does no harm.
export MAKEFILE_NAMED = $(value MAKEFILE_LIST)
export SCRIPT_NAMED = $(value SCRIPT)
export SEED_NAMED = $(value SEED)
export PRESET_NAMED = $(value PRESET)
export ANEW_NAMED = $(value ANEW)
# The folder in which make was called, also where -C leads elsewhere.
export CALLED_IN = $(value PWD)
# make would expand what it exports by itself.
unexport SCRIPT SEED PRESET ANEW

# make begins its list of files with a space.
TOP = "$$(dirname "$${MAKEFILE_NAMED\# }")"

.PHONY: help run hello audit demo prove bench check quick rust simulate test clean

# The list at the top is what it prints.
help:
	@sed -n '/^# /!q; s/^# //p' "$${MAKEFILE_NAMED# }"

run:
	@$(TOP)/tools/run "$$SCRIPT_NAMED"

hello:
	@$(TOP)/tools/play batcher_hello < /dev/null

audit:
	@$(TOP)/tools/run "$$SCRIPT_NAMED" batcher_audit

demo:
	@$(TOP)/tools/demo "$$SEED_NAMED"

prove:
	@$(TOP)/tools/prove

bench:
	@$(TOP)/tools/prove batcher_bench && $(TOP)/crates/batcher_bench/out/batcher_bench time

check:
	@$(TOP)/tools/check

quick:
	@$(TOP)/tools/quick

rust:
	@$(TOP)/tools/rust

simulate:
	@$(TOP)/tools/simulate $${SEED_NAMED:+"$$SEED_NAMED"} $${PRESET_NAMED:+"$$PRESET_NAMED"}

# A signal to make's recipe is one to the gate.
test:
	@exec $(TOP)/tools/test $${ANEW_NAMED:+--anew}

clean:
	@rm -rf "$$(cat $(TOP)/out/gate/room 2> /dev/null)" $(TOP)/crates/*/out $(TOP)/rust/target $(TOP)/rust/validator/target $(TOP)/rust/store/target $(TOP)/rust/simulator/target $(TOP)/out
