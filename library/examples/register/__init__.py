"""A register of companies over timestore: what stood when, who entered it, and for which case."""
