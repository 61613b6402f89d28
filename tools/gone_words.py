#!/usr/bin/env python3
"""Looks for words that are gone: names of crates, modules, types and constants that got a better one, in code, definitions,
proofs, edits and pages, and files whose name ends in -ing. It prints each place with the better word; the status is 1 then.
CHANGELOG.md tells of the past and isn't looked at, nor is a log's target, which users may have in a filter."""
import re
import subprocess
import sys

# Whole words, wherever they stand.
GONE = {
    "cc_sides": "cc_node_state", "cc_files": "cc_site", "cc_http": "cc_status", "cc_watch": "cc_status", "cc_texts": "cc_command_line",
    "cc_orders": "cc_command_line", "cc_arguments": "cc_command_line", "cc_load": "cc_client", "cc_look": "cc_client",
    "cc_commands": "cc_subcommands", "cc_protocol": "cc_policies", "cc_terminal": "cc_subcommands", "cc_play": "cc_subcommands", "cc_service": "cc_web", "cc_gateway": "cc_web",
    "cc_frames": "cc_connections", "cc_addresses": "cc_connections", "cc_flags": "cc_connections", "cc_flushing": "cc_threads",
    "cc_life": "cc_intake", "cc_network": "cc_connections",
    "cc_states": "cc_node_state", "cc_words": "cc_command_line", "cc_shared": "cc_channels or cc_threads", "cc_dialling": "cc_channels or cc_threads",
    "Standing": "PeerHealth, Readiness or Resend", "Standings": "HealthTable", "PeerStanding": "PeerRow",
    "Lasting": "SlowOperation", "Incoming": "ReceivedFrames", "Admitting": "Admit", "Dialling": "HelloExchange",
    "Meeting": "HeardNodes", "Rising": "AscendingSet",
    "PATIENCE": "a limit with its unit", "PATIENCE_MS": "a limit with its unit", "PATIENCE_WITH_MESSAGES": "HELD_MESSAGE_SECONDS",
    "SHORT_PATIENCE": "REASON_SECONDS", "PLENTY": "WRITE_BYTES or CHECKPOINT_BYTES", "GROWTH": "CHECKPOINT_GROWTH_BYTES"}

# Modules, where they are named as such.
MODULES = {
    "calling": "snapshot_timer", "lasting": "slow_operation", "heeding": "response", "parting": "round_selection",
    "following": "peers_file", "looking": "absent_peers", "standing": "peer_health", "objecting": "retirement_check",
    "meeting": "heard_nodes", "showing": "shown_state", "attending": "connection", "committing": "commit",
    "scanning": "record_scan", "restoring": "restored_node", "choosing": "side_choice", "rising": "ascending_set",
    "dialling": "hello_exchange", "admitting": "event_admission"}

# Files that are called by nouns all the same, and one that is the bytes of a page, which don't change.
KEPT = {"opening.rt", "warning.rt"}
PAGE = "crates/cc_status/src/home_page.rt"

WORD = re.compile(rf"(?<![\w:\"])({'|'.join(GONE)})(?!\w)(?!::\w+\";)")
MODULE = re.compile(rf"(?:\bmod |\bcrate::|^file: src/|/src/)({'|'.join(MODULES)})(?:;|::|\.rt\b|$)", re.M)


def places(path, text):
    for number, line in enumerate(text.splitlines(), 1):
        for word in WORD.findall(line):
            yield f"{path}:{number}: {word} is gone: {GONE[word]}"
        for word in MODULE.findall(line):
            yield f"{path}:{number}: {word} is gone: {MODULES[word]}"


def main():
    listed = subprocess.run(["git", "ls-files"], check=True, stdout=subprocess.PIPE, text=True).stdout.splitlines()
    found = []
    for path in listed:
        name = path.rpartition("/")[2]
        if path.startswith("crates/") and re.search(r"ing\.(rt|antt)$", name) and name not in KEPT:
            found.append(f"{path}: a file is called by a noun")
        is_code = path.startswith("crates/") and path.endswith((".rt", ".antt", ".edit")) and path != PAGE
        if is_code or path.endswith(".md") and path != "CHANGELOG.md":
            with open(path, encoding="utf-8") as it:
                found += places(path, it.read())
    print("\n".join(found) if found else f"none of {len(GONE) + len(MODULES)} words that are gone stands anywhere")
    return int(bool(found))


sys.exit(main())
