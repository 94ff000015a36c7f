"""The attacks of bench/attack, and how it judges the responses."""
