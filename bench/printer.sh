#!/usr/bin/env bash
# Runs a receipt printer of 42 characters a line, and a plain Rust program, through the same 20,000 printNormal of 4,096
# bytes, and through 100,000 requests that are queued and then worked on one by one, three times, and prints the
# microseconds that each takes. Usage: bench/printer.sh [--small]. It needs rt and rustc; a run proves the crates.
# With --small the counts are a thousandth, and nothing is proved.
set -eu
top=$(cd "$(dirname "$0")/.." && pwd)
work=$(mktemp -d)
trap 'rm -rf "$work"' EXIT

. "$top/bench/crates.sh"
lay_out printer pos_service pos_common pos_sims pos_printer anyhow
build_plain printer
run_bench printer
