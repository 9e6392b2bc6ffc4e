#!/usr/bin/env bash
# Lays out every crate as `rt fmt` does, at the top of the repository.
set -eu
cd "$(dirname "$0")/.."
for crate in crates/*/; do
    (cd "$crate" && rt fmt >/dev/null) || echo "fmt: $crate was not laid out" >&2
done
