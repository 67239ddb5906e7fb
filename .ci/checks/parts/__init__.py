"""What the steps are made of: scenarios with their transcripts, programs that are run, inputs that are drawn or bent."""
