"""A session of `vrepl live`, or of what stands in for it, held to docs/LIVE.md: run by tests/run_live.py."""
