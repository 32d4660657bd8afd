"""The pages of the reference, from their words, the programs and the code."""
