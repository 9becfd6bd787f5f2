#!/bin/sh
# Makes texts of tokens by chance, and as many changes of texts that are read, and reads each:
# `tools/random_texts.sh [SEED [COUNT]]`, from seed 1 on and 100,000 of each unless told otherwise. Ends
# with status 1 where some text gets an answer that it may not get: a place that is none of the text's,
# or an expression whose source text reads back as another. The gate runs the same over 2,000 of each.
exec "$(dirname "$0")/by_chance.sh" "texts by chance" "all answered" "${1:-1}" "${2:-100000}"
