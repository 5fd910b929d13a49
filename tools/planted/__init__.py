"""Mistakes that are planted to see that checks and measures find them: what --self-test of NAME calls is `self_test` of the file of that name."""
