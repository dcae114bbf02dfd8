#!/usr/bin/env bash
# Prints how many groups a second a store takes over a disk in memory, by layout 1 with 64 files of 128 bytes and by
# layout 2 with 250 files of 256 bytes, for each 5,000 commits in turn, and how many new images they make: of small
# groups, which go to the log while it has room, and of groups that are longer than a log of layout 1. A disk holds two
# images of a layout and their logs, so the rate doesn't fall with the number of commits.
# Usage: bench/store.sh [--small]. It needs rt; a run proves the crates. With --small the counts are a thousandth, and
# nothing is proved.
set -eu
top=$(cd "$(dirname "$0")/.." && pwd)
work=$(mktemp -d)
trap 'rm -rf "$work"' EXIT

. "$top/bench/crates.sh"
lay_out store pos_disk pos_image pos_dir pos_store anyhow
run_bench store
