"""Stacks whose scripts nest each shape of the language as deep as the grammar and the calls allow."""
