#!/usr/bin/env bash
# Holds the index's finds to an implementation that works from the definition.
exec bash "$(dirname "${BASH_SOURCE[0]}")/../held.sh" finds_program finds "the definition"
