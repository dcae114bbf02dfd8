#!/usr/bin/env bash
# Runs the queues of events and of output, and a plain Rust program with a VecDeque a kind, through the same work, and
# prints the microseconds that each takes. Usage: bench/events.sh [--small]. It needs rt and rustc; a run proves the
# crates. With --small the counts are a thousandth, and nothing is proved.
set -eu
top=$(cd "$(dirname "$0")/.." && pwd)
work=$(mktemp -d)
trap 'rm -rf "$work"' EXIT

. "$top/bench/crates.sh"
lay_out events pos_service pos_events pos_output anyhow
build_plain events
run_bench events
