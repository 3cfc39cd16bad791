"""The parts of tests/tool."""
