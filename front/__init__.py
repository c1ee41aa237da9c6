"""What stands between people and the program: its runs, its answers, and the texts of its stacks."""
