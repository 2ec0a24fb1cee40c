"""Records a program, and shows the races of the run."""
