"""Pictures of a run: its path from above and from the side, and its speed."""
