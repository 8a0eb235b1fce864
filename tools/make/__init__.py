"""What makes the files that are kept: the cases of the vectors program, and the samples."""
