"""Rows for check_tools: what the tools must not harm, and what they must not print."""
