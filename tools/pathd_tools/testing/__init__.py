"""Every test of the repository, without a proof."""
