#!/bin/sh
# Makes trees by chance and evaluates each plainly, through each pass, through all passes and split,
# and by a scan: `tools/random_trees.sh [SEED [COUNT]]`, from seed 1 on and 1,000,000 of them unless
# told otherwise. Ends with status 1 where some tree is answered otherwise than plainly, with the one
# of the shortest text, or is written as a text that reads back as another. The gate runs the same
# over 2,000 trees.
exec "$(dirname "$0")/by_chance.sh" "by chance" "all agree" "${1:-1}" "${2:-1000000}"
