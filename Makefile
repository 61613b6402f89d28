# The commands of the README. The toolchain is Rattle's kit, with its command rt on the PATH.
.PHONY: try run install test check bench edits standing-edits must-not-compile refused-growths failing-calls kill-files \
    cluster load kill-cluster soak soak-absent hostile closed-streams dead-member refused-flood stray-frames many-sessions \
    stale-collects costs worked-rows trusted links beside look look-picture hostile-status mistakes deb test-systemd \
    tls-cluster clients page-bytes one-session half-close idle-cluster power-cut slow-readers slow-beside full-pipe operator-places many-nodes \
    upgrade chain gone-words one-edit-each first-store snapshots partial-writes wrong-places mutated-hellos http-clients turns hops

# Plays the script that ships with the program before any proof.
try:
	@echo 'unproved: compiling and playing crates/ccnode/stdin ...'
	@cd crates/ccnode && rt try -- play < stdin

# Proves programs and what they stand on, as the gate does, and builds them.
BUILD = python3 tools/build.py

# Builds the program, proves it on the way, and plays the script that ships with it.
run:
	@echo 'proving and building ccnode (the first run takes long: see README.md) ...'
	@$(BUILD) ccnode
	@echo '$$ ccnode play < crates/ccnode/stdin'
	@./crates/ccnode/out/ccnode play < crates/ccnode/stdin

# Installs the program that `make run` has built, its man page, its unit and what that runs, completions and pages.
# PREFIX=/opt/ccnode puts them elsewhere. The unit wants a user ccnode, whom the Debian package makes and this doesn't.
PREFIX = /usr/local
PROGRAM = crates/ccnode/out/ccnode
SHARE_FOLDER = $(DESTDIR)$(PREFIX)/share
ZSH_COMPLETIONS = $(PREFIX)/share/zsh/site-functions
PAGES = README.md docs/RUN.md docs/PLAY.md docs/status-page.png docs/SECURITY.md docs/FORMATS.md docs/SERVER.md \
    docs/DURABILITY.md docs/openapi.yaml CHANGELOG.md
install:
	install -D $(PROGRAM) $(DESTDIR)$(PREFIX)/bin/ccnode
	install -D -m 644 docs/ccnode.1 $(SHARE_FOLDER)/man/man1/ccnode.1
	install -d $(DESTDIR)$(PREFIX)/libexec/ccnode $(DESTDIR)$(PREFIX)/lib/systemd/system
	sed 's,/usr/,$(PREFIX)/,g' packaging/run-node > $(DESTDIR)$(PREFIX)/libexec/ccnode/run-node
	chmod 755 $(DESTDIR)$(PREFIX)/libexec/ccnode/run-node
	sed 's,/usr/,$(PREFIX)/,g' packaging/deb/ccnode@.service > $(DESTDIR)$(PREFIX)/lib/systemd/system/ccnode@.service
	chmod 644 $(DESTDIR)$(PREFIX)/lib/systemd/system/ccnode@.service
	install -D -m 644 packaging/completions/ccnode.bash $(SHARE_FOLDER)/bash-completion/completions/ccnode
	install -D -m 644 packaging/completions/ccnode.fish $(SHARE_FOLDER)/fish/vendor_completions.d/ccnode.fish
	install -D -m 644 packaging/completions/_ccnode $(DESTDIR)$(ZSH_COMPLETIONS)/_ccnode
	install -d $(SHARE_FOLDER)/doc/ccnode/examples/tls
	python3 packaging/pages.py $(SHARE_FOLDER)/doc/ccnode $(PAGES)
	install -m 644 packaging/deb/examples/* packaging/prometheus/* $(SHARE_FOLDER)/doc/ccnode/examples/
	install -m 644 examples/client.py examples/view.html $(SHARE_FOLDER)/doc/ccnode/examples/
	install -m 755 packaging/tls/certificates.sh packaging/tls/configuration.sh $(SHARE_FOLDER)/doc/ccnode/examples/tls/

# Makes a Debian package, packaging/out/ccnode_VERSION_ARCHITECTURE.deb, out of the program that `make run` or `make test`
# has built. It proves nothing. It needs Debian's dpkg-dev and binutils.
deb:
	@bash packaging/deb/build.sh $(PROGRAM) packaging/out

# Boots a clean Debian whose process 1 is systemd, and tries the unit of the package that `make deb` made, an upgrade, a
# removal and a purge there: two minutes. DEBIAN=FOLDER takes one that debootstrap made before. It needs root and debootstrap.
PACKAGE = $(lastword $(sort $(wildcard packaging/out/*.deb)))
DEBIAN =
test-systemd:
	@bash packaging/test_systemd.sh $(PACKAGE) $(DEBIAN)

# Runs three nodes in network namespaces of their own behind mutual TLS, has clients refused that have no certificate or a
# revoked one, kills a node, and measures what TLS costs: two minutes. It needs root, and Debian's stunnel4, openssl and
# iproute2.
tls-cluster:
	@$(BUILD) ccnode
	@bash packaging/tls/cluster.sh $(PROGRAM)

# Proves every crate from nothing, tries the edits that must fail, and runs the tests and the programs.
test: chain gone-words
	rt ci

# Has the prover refuse one edit of each crate of which `rt ci` tries none, over the libraries that `make test` has just left:
# some minutes. CRATES="cc_views cc_wire" does these alone. The gate, `.ci/run`, is both.
one-edit-each:
	@python3 tools/one_edit_each.py $(CRATES)

# Looks whether the longest chain of crates that stand on each other has grown, for which the program waits: a second.
chain:
	@python3 tools/chain.py

# Looks whether a name that got a better one still stands in code, definitions, proofs, edits or pages: a second.
gone-words:
	@python3 tools/gone_words.py

# Proves one crate and what it stands on, over what was checked before: make check CRATE=cc_wire
check:
	@cd crates/$(CRATE) && rt check

# Times single events, the engine in memory and on the disk, and a script of 10,000 lines over 16
# nodes, and counts the bytes that a commit copies, for which it needs a C compiler. It prints figures and fails nothing.
bench:
	@$(BUILD) cc_bench ccnode
	@./crates/cc_bench/out/cc_bench events
	@./crates/cc_bench/out/cc_bench engine
	@python3 bench/copied_bytes.py crates/cc_bench/out/cc_bench
	@sh bench/largest_script.sh > largest_script.log
	@echo 'a script of 10,000 lines over 16 nodes:'
	@bash -c 'time ./crates/ccnode/out/ccnode play < largest_script.log | wc -lc'
	@rm -f largest_script.log

# Tries all edits of some crates, those of the gate and those beside it, many in one check: make edits CRATES="cc_views
# cc_wire", or CRATES=all.
edits:
	@python3 tools/edits.py $(CRATES)

# Looks whether each edit can still be made: whether the text that it changes stands once in its file. It takes a second.
standing-edits:
	@python3 tools/edits.py --standing all

# Tries programs that drop, copy or take apart what must be put out first, or make up a refusal: the compiler refuses
# each, at its own line and for its own reason. It takes a minute, and proves nothing.
must-not-compile:
	@python3 tools/must_not_compile.py

# Builds the tests, and refuses each growth of each test once: a test may then end with want of memory, never with a fault.
# CRATES=parts_tests does one crate. The tests over sockets are left out, since a node that is refused memory waits there for
# seconds. It needs a C compiler.
TESTS = $(filter-out server_tests, $(shell grep -rl '\[test\]' crates/*/src | cut -d/ -f2 | sort -u)) golden_files
refused-growths: CRATES = $(TESTS)
refused-growths:
	@for crate in $(CRATES); do \
	    case $$crate in golden_files) $(BUILD) $$crate;; *) (cd crates/$$crate && rt test);; esac > growths.log 2>&1 || \
	    { cat growths.log; exit 1; }; done
	@rm -f growths.log
	@python3 tools/refused_growths.py $(CRATES)

# Has each disk call of a node on two files fail in turn, and each read and write in turn move a single byte, and opens it
# again: two minutes. It needs a C compiler.
failing-calls:
	@$(BUILD) ccnode
	@python3 tools/failing_calls.py crates/ccnode/out/ccnode

# Kills a node that writes on two files a thousand times with SIGKILL, and opens it again: about two minutes. KILLS=100
# does fewer.
KILLS = 1000
kill-files:
	@$(BUILD) ccnode cc_bench
	@bash tools/kill_files.sh crates/cc_bench/out/cc_bench crates/ccnode/out/ccnode $(KILLS)

# Runs three nodes on loopback, asks each, kills one, asks on, starts it again, and shows that all three collect the
# same. It takes a few seconds, once the program is built, and ends all that it started.
cluster:
	@$(BUILD) ccnode
	@bash tools/cluster.sh crates/ccnode/out/ccnode

# Measures three nodes on loopback under 1, 8, 64 and 192 clients beside the disk's own syncs: about three minutes. It fails
# nothing. PAUSE=2000 makes each sync take so many microseconds more, as on a slower disk; that needs a C compiler. With
# SHARE=32 up to 32 asks of a node begin together; so it is with the two that follow.
PAUSE = 0
SHARE = 1
load:
	@$(BUILD) ccnode
	@$(if $(NODES),python3 tools/sizes.py crates/ccnode/out/ccnode $(NODES),python3 tools/load.py crates/ccnode/out/ccnode 10 $(PAUSE) $(SHARE))

# Upgrades three nodes under load from another program, node by node: half a minute. make upgrade OLD=PROGRAM
upgrade:
	@$(BUILD) ccnode
	@python3 tools/upgrade.py crates/ccnode/out/ccnode $(OLD)

# Runs 33 nodes on this machine, takes ten of them away at once and brings them back: two minutes. NODES=65 runs as many.
many-nodes:
	@$(BUILD) ccnode
	@python3 tools/many_nodes.py crates/ccnode/out/ccnode $(NODES)

# Measures three nodes of share 1 and of share 32, and three of etcd and of ZooKeeper in the same run, which have to be there
# (Debian's etcd-server and zookeeper): about five minutes. It fails nothing.
beside:
	@$(BUILD) ccnode
	@python3 tools/beside.py crates/ccnode/out/ccnode

# Measures this program and BEFORE, another one, by turns: rates, waits and processor time with folders in memory and on the
# disk, 25 minutes. It fails nothing.
turns:
	@$(BUILD) ccnode
	@python3 tools/turns.py crates/ccnode/out/ccnode $(BEFORE)

# Prints the way of one store through three nodes, call by call. It needs a C compiler, and fails nothing.
hops:
	@$(BUILD) ccnode
	@python3 tools/hops.py crates/ccnode/out/ccnode

# Kills nodes of a cluster under load 200 times with SIGKILL, starts each again, and checks what clients are told: about
# three minutes. KILLS=20 does fewer, AWAY=20 has a killed node wait for up to so many seconds.
kill-cluster: KILLS = 200
kill-cluster: AWAY = 0.1
kill-cluster:
	@$(BUILD) ccnode
	@python3 tools/kill_cluster.py crates/ccnode/out/ccnode $(KILLS) $(AWAY) $(SHARE)

# Runs the unit tests of the client libraries, and all of them at three nodes that are killed meanwhile: some minutes. A
# language whose tool isn't installed is named as left out. OPERATIONS=2000 does fewer of each language, KILLS=10 kills less
# often.
clients: OPERATIONS = 20000
clients: KILLS = 60
clients:
	@$(BUILD) ccnode
	@python3 clients/languages.py
	@python3 clients/conformance.py crates/ccnode/out/ccnode --operations $(OPERATIONS) --kills $(KILLS) --share $(SHARE)

# Has two clients use one session at once, by `ccnode ask` and by the Python library, through proxies that delay what they
# send: nobody may be told `Stored` for what wasn't done. A minute.
one-session:
	@$(BUILD) ccnode
	@python3 tools/one_session.py crates/ccnode/out/ccnode

# Has clients shut down their sending half behind an ask, a repeat and a new one: each gets its answer, and then the end. Half
# a minute.
half-close:
	@$(BUILD) ccnode
	@python3 tools/half_close.py crates/ccnode/out/ccnode

# Kills two of three idle nodes, and looks whether the third one notices, though nobody asks it anything: half a minute.
idle-cluster:
	@$(BUILD) ccnode
	@python3 tools/idle_cluster.py crates/ccnode/out/ccnode

# Kills a node and starts it again, twelve times, and times the first store that it is asked then: half a minute.
first-store:
	@$(BUILD) ccnode
	@python3 tools/first_store.py crates/ccnode/out/ccnode

# Has a sync of a node fail once, starts it again, and gives it what a power cut leaves: what it answered has to be there.
# Three minutes; TIMES=5 does more. It needs a C compiler.
power-cut: TIMES = 2
power-cut:
	@$(BUILD) ccnode
	@python3 tools/power_cut.py crates/ccnode/out/ccnode $(TIMES)

# Runs nodes whose standard error is a pipe that nobody reads: they go on, and end where the disk is full. A minute and a half.
full-pipe:
	@$(BUILD) ccnode
	@python3 tools/full_pipe.py crates/ccnode/out/ccnode

# Takes all places of a node, and those that are spare for the operator, by connections that drip: the operator gets in. A
# minute.
operator-places:
	@$(BUILD) ccnode
	@python3 tools/operator_places.py crates/ccnode/out/ccnode

# Greets a node by a million mutated Hellos, and by Hellos that drip. Some minutes.
mutated-hellos:
	@$(BUILD) ccnode
	@python3 tools/mutated_hellos.py crates/ccnode/out/ccnode

# Asks nodes over HTTP as the pages say that one may, at each limit of a connection, by a million mutated requests, without a
# quorum and under kills.
http-clients:
	@$(BUILD) ccnode
	@python3 tools/http_clients.py crates/ccnode/out/ccnode

# Makes each mistake with addresses, ids and folders in a cluster with clients: each has to be named, and nothing lost. A minute
# and a half.
wrong-places:
	@$(BUILD) ccnode
	@python3 tools/wrong_places.py crates/ccnode/out/ccnode

# Has 30 clients read slowly what a node doesn't listen to any more, beside 1,100 silent ones, and counts its sockets; and
# has its disk get full meanwhile. Two minutes.
slow-readers:
	@$(BUILD) ccnode
	@python3 tools/slow_readers.py crates/ccnode/out/ccnode

# Measures what clients wait beside 200 others that don't read, and beside a peer that reads a byte a second: two minutes.
slow-beside:
	@$(BUILD) ccnode
	@python3 tools/slow_beside.py crates/ccnode/out/ccnode

# Has a client read long replies and refusals bit by bit, and compares each frame: half a minute.
partial-writes:
	@$(BUILD) ccnode
	@python3 tools/partial_writes.py crates/ccnode/out/ccnode

# Sends the frames of docs/FORMATS.md to nodes on loopback, and compares what comes back: seconds.
page-bytes:
	@$(BUILD) ccnode
	@python3 tools/page_bytes.py crates/ccnode/out/ccnode

# Runs five nodes under load through a slow disk, a stopped node, two halves and a dead node: about three minutes. It
# needs a C compiler.
soak:
	@$(BUILD) ccnode
	@python3 tools/soak.py crates/ccnode/out/ccnode $(SHARE)

# Runs clusters under load of which members stay away: one of three is dead for ten minutes, MINUTES=2 makes that fewer, and
# some eight minutes beside it. PAUSE=5000 makes each sync take so many microseconds more; that needs a C compiler.
soak-absent: MINUTES = 10
soak-absent:
	@$(BUILD) ccnode
	@python3 tools/soak_absent.py crates/ccnode/out/ccnode $(MINUTES) $(PAUSE)

# Has clients misuse a node on loopback: idle connections, a flood of asks, one that never reads, zeros without end. It
# fails where the node doesn't answer afterwards: a minute at most.
hostile:
	@$(BUILD) ccnode
	@python3 tools/hostile.py crates/ccnode/out/ccnode

# Runs three nodes on loopback with status pages and addresses for HTTP, and prints where these are: until Ctrl-C.
look:
	@$(BUILD) ccnode
	@python3 tools/look.py crates/ccnode/out/ccnode

# Takes docs/status-page.png: the page of a cluster of which one node was killed and another enters. It needs Chromium, and
# takes two and a half minutes.
look-picture:
	@$(BUILD) ccnode
	@python3 tools/look_picture.py crates/ccnode/out/ccnode docs/status-page.png

# Misuses the status page of a node under load: half heads and endless ones, a thousand connections at once, pipelining,
# bodies, garbage, streams that nobody reads. It fails where a request isn't answered as it should be, or the cluster
# answers fewer than 95 of 100 asks meanwhile: two and a half minutes.
hostile-status:
	@$(BUILD) ccnode
	@python3 tools/hostile_status.py crates/ccnode/out/ccnode

# Makes the mistakes that a new user makes, and compares what is printed with what docs/RUN.md says of each: seconds.
mistakes:
	@$(BUILD) ccnode
	@python3 tools/mistakes.py crates/ccnode/out/ccnode

# Runs a node with its standard streams closed in all seven ways, kills it KILLS times in each while a client stores, and
# checks that what was answered is there, and that no command writes into a file of its folder: three minutes.
closed-streams: KILLS = 10
closed-streams:
	@$(BUILD) ccnode
	@python3 tools/closed_streams.py crates/ccnode/out/ccnode $(KILLS)

# Runs thirteen nodes under load, kills one and leaves it dead for MINUTES, counts the connections of each peer, and has the
# others retire it: a quarter of an hour. With RETURN=1 it is started again in place of that.
MINUTES = 15
RETURN =
dead-member:
	@$(BUILD) ccnode
	@python3 tools/dead_member.py crates/ccnode/out/ccnode $(MINUTES) $(if $(RETURN),return)

# Has 300 connections send frames that a node refuses, and times a client's refusals and stores meanwhile: half a minute.
refused-flood:
	@$(BUILD) ccnode
	@python3 tools/refused_flood.py crates/ccnode/out/ccnode

# Sends single frames in the name of a node that nobody knows, and of one that doesn't run, and shows what becomes of a
# cluster and of its clients: three minutes at most.
stray-frames:
	@$(BUILD) ccnode
	@python3 tools/stray_frames.py crates/ccnode/out/ccnode

# Plays a script of nearly 10,000 lines over 16 nodes with four sessions each, and checks the answers: half a minute.
many-sessions:
	@$(BUILD) ccnode
	@python3 tools/many_sessions.py crates/ccnode/out/ccnode

# Plays random scripts of clusters that are cut in two again and again, and compares each reading with what was answered
# before it was asked for: none may miss any of it where more than half of the members are enough, and some must be found
# that do where half are. About a minute; SCRIPTS=100 plays more of each kind.
SCRIPTS = 10
stale-collects:
	@$(BUILD) ccnode
	@python3 tools/stale_collects.py crates/ccnode/out/ccnode $(SCRIPTS)

# Takes snapshots of clusters whose nodes are killed and whose messages are held back, and looks for an order of all writes and
# snapshots. Three and five nodes, with shares 1 and 32, a minute each; SECONDS=10 is quicker, and SECONDS=rates prints how many
# collects a snapshot takes while others write.
snapshots: SECONDS = 60
snapshots:
	@$(BUILD) ccnode
	@python3 tools/snapshots.py crates/ccnode/out/ccnode $(SECONDS)

# Runs the gate from nothing, and prints what each crate cost it, in seconds of the processors: as long as the gate.
# CRATES="cc_views cc_wire" does these crates and those that they stand on.
costs:
	@python3 tools/costs.py $(CRATES)

# Tries the definitions on worked examples, by computation: a wrong value is refused. It takes a minute, and proves no
# crate.
worked-rows:
	@bash tools/worked_rows.sh

# Computes which definitions a reader of docs/THEOREMS.md has to trust, and compares them with the page's list. It proves
# nothing, and takes a second.
trusted:
	@python3 tools/trusted.py

# Looks whether each link of the pages leads to a file that is there, and each name in one to a word of that file.
links:
	@python3 tools/links.py
