"""Notes on what GitHub refuses or doesn't run as meant, and the linter accepts. They are not proved."""
