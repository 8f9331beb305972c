"""What tools/pack.py is made of: the texts of segments, the archive that is written, and the two kinds of input."""
