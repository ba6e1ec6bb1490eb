"""Checks of the repository's pages against its sources."""
