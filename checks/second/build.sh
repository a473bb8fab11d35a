#!/usr/bin/env bash
# Builds what is compared: the proved programs `lines`, `statements`, `gasaccount` and `prices`, and the second programs
# and their journals.
set -eu
cd "$(dirname "$0")/../.."
(cd crates/lines && rt run < stdin) > /dev/null
(cd crates/statements && rt run -- ) > /dev/null
(cd crates/gasaccount && rt run -- statement 0 < stdin) > /dev/null
(cd crates/prices && rt run) > /dev/null
(cd checks/second && cargo build --quiet --release --offline --target-dir target)
