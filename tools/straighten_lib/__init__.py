"""What tools/straighten does: a text of a CAM program becomes one of the dialect. docs/DIALECT.md says what is changed."""
