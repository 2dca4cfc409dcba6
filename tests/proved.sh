#!/usr/bin/env bash
# Checks that docs/PROVED.md and docs/proved/ are what tools/proved.py makes of the sources, and the pictures what tools/pictures.py
# makes of crates.txt.
cd "$(dirname "$0")/.." || exit 1
python3 tools/pictures.py --check && exec python3 tools/proved.py --check
