"""What a run was, for whoever has the job: what was refused, how long it takes, and where it is slow."""
