#!/usr/bin/env bash
# For a cluster's engine: of rows that are sorted by their key, those whose key stands more than once.
exec awk -F '\t' '$1 == key { if (row != "") print row; row = ""; print; next } { key = $1; row = $0 }'
