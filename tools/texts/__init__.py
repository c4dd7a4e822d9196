"""The texts of a run, read: the job, the console, and the steps."""
