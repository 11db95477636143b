"""What tests/run_serve.py does: serve/ tried over a stand-in for the program's session, or over the program itself."""
