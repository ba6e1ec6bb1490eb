"""A load on a server, and pictures of what it does and of a store's file."""
