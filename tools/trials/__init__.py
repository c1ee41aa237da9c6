"""The cases of ./trial."""
