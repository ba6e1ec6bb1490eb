"""Checks of the built program against its pages and against the system."""
