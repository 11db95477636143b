"""The parts of tests/run_record.py."""
