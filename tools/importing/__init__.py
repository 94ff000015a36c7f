"""Reads what other servlet containers are configured by, and writes it in this program's formats."""
