#!/bin/sh
# No model has anything of the library, nor of the tests and benchmarks that drive it.
set -eu
cd "$(dirname "$0")/.."
if grep -rnE 'archive|sajowemi|#\[path|include!' models --include='*.rs' --include='*.c' --include='*.py'; then
    echo "models: these lines reach out of the folder" >&2
    exit 1
fi
if grep -n '#include "' models/vectors/make.c; then
    echo "models: this file reaches out of the folder" >&2
    exit 1
fi
echo "models: none reaches out of its folder"
