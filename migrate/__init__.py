"""Brings stacks of HyperCard here, tells what is lost and what will run, and writes a stack out again."""
